actor A {
    func f() -> Int { 1 }
}
let a = A()
@main struct Main {
    static func main() async {
        let t = Task { try await a.f() }
        print(await t.value)
    }
}
