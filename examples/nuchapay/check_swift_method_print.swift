actor A {
    private(set) var count = 1
    func print(_ x: Int) { count += x }
    func f() { print(3) }
}
let a = A()
@main struct Main {
    static func main() async {
        await a.f()
        print(await a.count)
    }
}
