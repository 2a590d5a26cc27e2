// A method throws while its child runs: that is cancelled, and waited for.
enum Failure: Error { case odd }
actor A {
    private(set) var n = 0
    func slow() async -> Int {
        await Task.yield()
        n += Task.isCancelled ? 10 : 1
        return n
    }
    func bad() throws -> Int { throw Failure.odd }
}
let a = A()
actor B {
    private(set) var k = 0
    func run() async throws -> Int {
        async let s = a.slow()
        k += 1
        let x = try await a.bad()
        let y = await s
        k += 10
        return x + y
    }
}
let b = B()
@main struct Main {
    static func main() async {
        let r = (try? await b.run()) ?? -1
        print(r, await a.n, await b.k)
    }
}
