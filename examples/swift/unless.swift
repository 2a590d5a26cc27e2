// A child that is added only where its group is not cancelled.
actor A {
    private(set) var n = 0
    func f(_ k: Int) { n += k }
}
let a = A()
@main struct Main {
    static func main() async {
        await withTaskGroup(of: Void.self) { g in
            g.addTask { await a.f(1) }
            _ = g.addTaskUnlessCancelled { await a.f(10) }
            g.cancelAll()
            _ = g.addTaskUnlessCancelled { await a.f(100) }
        }
        print(await a.n)
    }
}
