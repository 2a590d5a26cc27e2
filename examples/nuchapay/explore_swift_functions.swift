// Functions outside of actors: those without async are put in where they are called, also in a closure and in one another.
enum Failure: Error { case empty }

let most = 100

func fee(_ amount: Int) -> Int {
    if amount > 50 { return 2 }
    return 1
}

func cost(of amount: Int) -> Int { amount + fee(amount) }

private func want(_ held: Bool) throws {
    guard held else { throw Failure.empty }
}

actor Account {
    private(set) var balance: Int

    init(_ balance: Int) { self.balance = balance }

    func withdraw(_ amount: Int) throws {
        try want(balance >= cost(of: amount))
        balance -= cost(of: amount)
    }

    func deposit(_ amount: Int) {
        balance += amount < most ? amount : most
    }
}

let left = Account(100)
let right = Account(0)

// One with async runs outside of the actor that calls it.
func transfer(_ amount: Int) async throws -> Int {
    try await left.withdraw(amount)
    await right.deposit(amount)
    return cost(of: amount)
}

// expect: left.balance + right.balance == 98
@main struct Main {
    static func main() async {
        let first = Task { try await transfer(60) }
        let second = Task { (try? await transfer(60)) ?? 0 }
        let paid = (try? await first.value) ?? 0
        print(paid + (await second.value))
        print(await left.balance, await right.balance, cost(of: 10))
    }
}
