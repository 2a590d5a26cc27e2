// A gate that nobody opens: who passes it waits in a loop.
actor Gate {
    var isOpen = false
    func pass() async -> Int {
        while !isOpen { await Task.yield() }
        return 1
    }
}
let gate = Gate()
@main struct Main {
    static func main() async {
        print(await gate.pass())
    }
}
