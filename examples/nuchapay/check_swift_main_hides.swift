actor A { func g() -> Int { 3 } }
let main = A()
@main struct Main { static func main() async { print(await main.g()) } }
