actor A { func g() -> Int { 3 }
  func h() -> Int { let g = 4; return g + g() } }
let a = A()
@main struct Main { static func main() async { print(await a.h()) } }
