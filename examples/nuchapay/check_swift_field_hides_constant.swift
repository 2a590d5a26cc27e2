let limit = 7
actor O { func id(_ k: Int) -> Int { k } }
let o = O()
actor A { private var limit = 3
    func change() { limit = 4 }
    func g() async -> Int { let t = Task { await o.id(limit) }; return await t.value } }
let a = A()
@main struct Main { static func main() async { print(await a.g(), limit) } }
