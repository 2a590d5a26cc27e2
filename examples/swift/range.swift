// The end of a range is computed once.
actor A {
    private(set) var x = 0
    func f() -> Int {
        var n = 3
        var c = 0
        for _ in 0..<n {
            n += 1
            c += 1
            if c > 5 { return c }
        }
        x = n
        return c
    }
}
let a = A()
@main struct Main {
    static func main() async {
        print(await a.f(), await a.x)
    }
}
