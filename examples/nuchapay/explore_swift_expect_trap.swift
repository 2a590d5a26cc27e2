// What is expected fails only behind a turn that leaves the invariant false.
actor Account {
    private(set) var balance = 10
    private(set) var waiting = 0
    // invariant: balance >= 0

    func withdraw(_ amount: Int) async -> Bool {
        guard balance >= amount else { return false }
        waiting += 1
        await Task.yield()
        balance -= amount
        waiting -= 1
        return true
    }
}

let account = Account()
// expect: account.waiting == 0

@main
struct Main {
    static func main() async {
        async let first = account.withdraw(10)
        async let second = account.withdraw(10)
        print(await first, await second)
    }
}
