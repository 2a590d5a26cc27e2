// A precondition that one of two tasks does not meet ends the process.
actor A {
    private(set) var n = 1
    func take() async -> Int {
        precondition(n > 0, "empty")
        let before = n
        await Task.yield()
        n = before - 1
        return n
    }
}
let a = A()
@main struct Main {
    static func main() async {
        async let x = a.take()
        async let y = a.take()
        let p = await x
        let q = await y
        print(p, q, await a.n)
    }
}
