enum T { @TaskLocal static var id = 1 }
actor A { func f() -> Int { T.id } }
let a = A()
@main struct Main {
    static func main() async {
        let x = T.$id.withValue(2) { await a.f() }
        print(x)
    }
}
