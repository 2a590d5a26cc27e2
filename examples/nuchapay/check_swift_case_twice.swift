enum Failure: Error { case odd, odd }
actor A { func f() throws -> Int { throw Failure.odd } }
let a = A()
@main struct Main {
    static func main() async { print((try? await a.f()) ?? 2) }
}
