actor A {
    private(set) var x: Int
    init(_ x: Bool) { self.x = x }
    func f() -> Int { x }
}
let a = A(true)
@main struct Main {
    static func main() async {
        print(await a.f())
    }
}
