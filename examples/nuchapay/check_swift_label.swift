actor Account { private(set) var balance = 0; func deposit(amount: Int) { balance += amount } }
let account = Account()
@main struct Main { static func main() async { await account.deposit(1) } }
