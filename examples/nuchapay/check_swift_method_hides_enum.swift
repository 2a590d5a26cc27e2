enum Failure: Error { case odd }
actor A {
    func Failure() -> Int { 3 }
    func g() throws -> Int { throw Failure.odd } }
let a = A()
@main struct Main { static func main() async { print((try? await a.g()) ?? 4) } }
