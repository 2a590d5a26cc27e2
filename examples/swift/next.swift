// Results of a group by next, in a loop that adds a child, and where none is left.
actor A {
    private(set) var n = 0
    func f(_ k: Int) -> Int { n = n * 10 + k; return k }
}
let a = A()
actor B {
    func run() async -> Int {
        var s = 0
        let last = await withTaskGroup(of: Int.self) { g in
            for i in 1...2 { g.addTask { await a.f(i) } }
            s = await g.next() ?? 50
            g.addTask { await a.f(3) }
            while let v = await g.next() { s = s * 10 + v }
            let none = await g.next() ?? 8
            return none
        }
        return s * 10 + last
    }
}
let b = B()
@main struct Main {
    static func main() async {
        let r = await b.run()
        print(r, await a.n)
    }
}
