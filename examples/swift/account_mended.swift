// The account of account.swift, which tests its balance again after the wait.

actor Account {
    private(set) var balance = 10
    // invariant: balance >= 0

    func withdraw(_ amount: Int) async -> Bool {
        guard balance >= amount else { return false }
        await Task.yield()                      // others may run here
        guard balance >= amount else { return false }
        balance -= amount
        return true
    }
}

let account = Account()
// expect: account.balance == 0

@main
struct Main {
    static func main() async {
        async let first = account.withdraw(10)
        async let second = account.withdraw(10)
        print("taken:", await first, await second, "left:", await account.balance)
    }
}
