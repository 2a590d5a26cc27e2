actor A { func f() throws -> Int { 1 } }
let a = A()
actor B {
    func run() async throws -> Int {
        await withTaskGroup(of: Int.self) { g in
            g.addTask { 1 }
            let x = try await a.f()
            return x
        }
    }
}
let b = B()
@main struct Main {
    static func main() async { print((try? await b.run()) ?? 3) }
}
