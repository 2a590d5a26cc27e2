actor A {
    private(set) var x: Int
    init(_ x: Int) { x = x }
    func f() -> Int { x }
}
let a = A(3)
@main struct Main {
    static func main() async {
        print(await a.f())
    }
}
