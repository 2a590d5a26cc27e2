actor A { func f() throws -> Int { 1 } }
let a = A()
actor B {
    private(set) var n = 0
    func run() async -> Int {
        let x = (try? await a.f()) ?? 2
        do { try Task.checkCancellation() } catch { n += 1 }
        return x
    }
}
let b = B()
@main struct Main {
    static func main() async { print(await b.run(), await b.n) }
}
