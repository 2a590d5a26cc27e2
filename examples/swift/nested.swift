// A group within the child of another one.
actor A {
    private(set) var n = 0
    func f(_ k: Int) -> Int { n += k; return k }
}
let a = A()
@main struct Main {
    static func main() async {
        let r = await withTaskGroup(of: Int.self) { g in
            g.addTask {
                return await withTaskGroup(of: Int.self) { h in
                    h.addTask { await a.f(1) }
                    var s = 0
                    for await v in h { s = s * 10 + v }
                    return s
                }
            }
            g.addTask { await a.f(3) }
            var s = 0
            for await v in g { s = s * 100 + v }
            return s
        }
        print(r, await a.n)
    }
}
