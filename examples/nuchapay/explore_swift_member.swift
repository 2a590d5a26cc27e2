// Members with the names of what is global, which is used where they do not stand: in other actors, in main and in an expectation.
let limit = 7
actor Lock {
    private(set) var taken = 0
    func lock() { taken += 1 }
    func twice() { lock(); lock() }
}
actor Account {
    private(set) var log = 3
    private(set) var sum = 0
    func limit() -> Int { 5 }
    func pay() async {
        await lock.lock()
        sum += await lock.taken + limit()
    }
    func later() async {
        let task = Task { await lock.twice() }
        await task.value
    }
}
actor Log {
    private var limit = 1
    func note() -> Int { limit += 1; return limit }
}
let lock = Lock()
let account = Account()
let log = Log()
// expect: lock.taken == 3 && account.log == 3
@main struct Main {
    static func main() async {
        await account.pay()
        await account.later()
        print(await account.sum, await lock.taken, await log.note(), limit)
    }
}
