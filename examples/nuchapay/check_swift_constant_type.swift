let n: Bool = 1
actor A {
    func f() -> Int { 1 }
}
let a = A()
@main struct Main {
    static func main() async {
        print(await a.f(), n)
    }
}
