actor A { func f() -> Int { 1 } }
let a = A()
@main struct Main {
    static func main() async {
        let r = await withTaskGroup(of: Int.self, returning: Bool.self) { g in
            g.addTask { await a.f() }
            return 3
        }
        print(r)
    }
}
