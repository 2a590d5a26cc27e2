// Closures that capture values in a list and constants, and call with labels.
actor A {
    private(set) var n = 0
    func f(_ k: Int, twice t: Bool) -> Int { n += k; if t { n += k }; return n }
}
let a = A()
@main struct Main {
    static func main() async {
        var x = 1
        let t = Task { [x] in await a.f(x, twice: true) }
        x += 10
        let u = Task { [x] in
            let r = await a.f(x, twice: false)
            let s = await a.f(x + 1, twice: r > 20)
            return r * 100 + s
        }
        let p = await t.value
        let q = await u.value
        print(p, q, x, await a.n)
    }
}
