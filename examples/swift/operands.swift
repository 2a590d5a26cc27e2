// Operands from left to right: a field that a call on its right changes is read before it.
actor A {
    private(set) var x = 0
    func bump(_ k: Int) -> Int { x = x * 10 + k; return k }
    func three() -> Int { bump(1) - bump(2) * bump(3) }
    func args(_ a: Int, _ b: Int, _ c: Int) -> Int { a * 100 + b * 10 + c }
    func f() -> Int { args(bump(4), x, bump(5)) }
    func g() -> Int { x + bump(1) + x + bump(2) * x }
    func h() -> Bool { bump(1) == 2 || bump(2) == 2 && bump(3) == 9 || bump(4) == 4 }
}
let a = A()
@main struct Main {
    static func main() async {
        let r = await a.three()
        let s = await a.f()
        let t = await a.g()
        let u = await a.h()
        print(r, s, t, u, await a.x)
    }
}
