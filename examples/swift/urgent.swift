// A task of low priority is raised while main waits for it, and reads what it had before or after that.
actor A {
    private(set) var n = 0
    func f(_ k: Int) async -> Int {
        await Task.yield()
        n = n * 10 + k
        return Task.currentPriority == .high ? 1 : Task.currentPriority >= .medium ? 2 : 3
    }
}
let a = A()
@main struct Main {
    static func main() async {
        let x = Task.detached(priority: .high) { await a.f(1) }
        let y = Task.detached(priority: .low) { await a.f(2) }
        let z = Task.detached(priority: .background) {
            let p = Task.currentPriority < .low
            return p
        }
        let q = await y.value
        let r = await x.value
        let s = await z.value
        print(q, r, s, await a.n)
    }
}
