// A child fails, and its group cancels another one between its checks.
enum Failure: Error { case odd }
actor A {
    private(set) var n = 0
    func f(_ k: Int) async throws -> Int {
        try Task.checkCancellation()
        n += 1
        await Task.yield()
        try Task.checkCancellation()
        n += 10
        if k == 2 { throw Failure.odd }
        return k
    }
}
let a = A()
actor B {
    func run() async throws -> Int {
        var s = 0
        try await withThrowingTaskGroup(of: Int.self) { g in
            g.addTask { try await a.f(1) }
            g.addTask { try await a.f(2) }
            for try await v in g { s += v }
        }
        return s
    }
}
let b = B()
@main struct Main {
    static func main() async {
        let r = (try? await b.run()) ?? -1
        print(r, await a.n)
    }
}
