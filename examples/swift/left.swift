// A child that is not awaited on each path may begin before the end of its scope cancels it.
actor A { private(set) var n = 0; func f() -> Int { n += Task.isCancelled ? 10 : 1; return n } }
let a = A()
actor B {
    private(set) var m = 0
    func run(_ k: Int) async -> Int {
        async let x = a.f()
        m += 1
        guard k > 1 else { return m }
        return await x
    }
}
let b = B()
@main struct Main {
    static func main() async {
        let p = await b.run(1)
        let q = await b.run(2)
        print(p, q, await a.n, await b.m)
    }
}
