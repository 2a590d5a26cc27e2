// Two waits in one do, each of which may throw; another task comes in between.
enum Failure: Error { case empty }

actor Account {
    private(set) var balance: Int

    init(_ balance: Int) { self.balance = balance }

    func withdraw(_ amount: Int) throws {
        guard balance >= amount else { throw Failure.empty }
        balance -= amount
    }

    func deposit(_ amount: Int) { balance += amount }
}

let left = Account(10)
let right = Account(5)

func move() async -> Bool {
    do {
        try await left.withdraw(10)
        try await right.withdraw(5)
        return true
    } catch {
        return false
    }
}

@main struct Main {
    static func main() async {
        async let first = move()
        async let second = move()
        print(await first, await second)
        print(await left.balance, await right.balance)
    }
}
