actor Account { private(set) var balance = 0; func deposit(_ amount: Int) { balance += amount } }
let account = Account()
@main struct Main {
    static func main() async {
        let amount = -(-1)
        await account.deposit(amount)
    }
}
