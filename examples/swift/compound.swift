// `x += await ..` and `x = x + (await ..)` while another task changes x.
actor A {
    private(set) var x = 0
    func f() async -> Int {
        let before = x
        x += await b.g()
        x = x + (await b.g())
        return x - before
    }
    func up() { x += 100 }
}
actor B {
    private(set) var n = 0
    func g() -> Int { n += 1; return n }
}
let a = A()
let b = B()
@main struct Main {
    static func main() async {
        async let r = a.f()
        async let u: Void = a.up()
        let v = await r
        await u
        print(v, await a.x)
    }
}
