actor A { func f() -> Int { 1 } }
let a = A()
@main struct Main {
    static func main() async {
        await withTaskGroup(of: Int.self) { print(await a.f()) }
    }
}
