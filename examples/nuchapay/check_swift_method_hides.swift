actor A { private(set) var n = 0
    func other() { n += 1 }
    func g() async { await other.other() } }
actor O { private(set) var n = 0
    func other() { n += 1 } }
let other = O()
let a = A()
@main struct Main { static func main() async { await a.g(); print(await a.n) } }
