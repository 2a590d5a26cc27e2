actor A {
    let x: Int = 3
    init() { x = 4 }
    func f() -> Int { x }
}
let a = A()
@main struct Main {
    static func main() async {
        print(await a.f())
    }
}
