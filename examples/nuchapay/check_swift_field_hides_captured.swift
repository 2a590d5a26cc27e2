let limit = 7
actor A { private var limit = 3
    func change() { limit = 4 }
    func g() async -> Int { let t = Task { [limit] in limit }; return await t.value } }
let a = A()
@main struct Main { static func main() async { print(await a.g(), limit) } }
