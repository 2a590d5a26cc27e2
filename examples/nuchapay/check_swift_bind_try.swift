enum T { @TaskLocal static var id = 1 }
actor A { func f() throws -> Int { T.id } }
let a = A()
actor B {
    func run() async throws -> Int {
        let x = await T.$id.withValue(2) { try await a.f() }
        return x
    }
}
let b = B()
@main struct Main {
    static func main() async { print((try? await b.run()) ?? 3) }
}
