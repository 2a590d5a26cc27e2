actor A {
    nonisolated var unownedExecutor: UnownedSerialExecutor { desk.asUnownedSerialExecutor() }
    private(set) var n = 1
}
let a = A()
@main struct Main {
    static func main() async { print(await a.n) }
}
