// Names that scripts keep for themselves.
actor Turn {
    private(set) var next = 1
    private(set) var root = 2
    func yield(_ check: Int) -> Int { next += check; return next }
    func spawn() async -> Int { let group = next; let detach = root; return group * 10 + detach }
    func bind() -> Int { root }
}
let priority = Turn()
let local = 3
@main struct Main {
    static func main() async {
        let task = Task { await priority.yield(2) }
        let assume = await task.value
        let fifo = await priority.spawn()
        print(assume, fifo, await priority.bind(), local, await priority.next)
    }
}
