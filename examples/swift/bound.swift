// A task local that is bound in a method without a wait.
enum T { @TaskLocal static var id = 1 }
actor A {
    private(set) var n = 0
    func g() -> Int { T.id }
    func f() -> Int {
        T.$id.withValue(5) { n += g() }
        let x = T.$id.withValue(6) { g() }
        return x + n
    }
}
let a = A()
@main struct Main {
    static func main() async {
        print(await a.f(), await a.n)
    }
}
