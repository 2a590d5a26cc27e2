actor Account { private(set) var balance = 0; func deposit(_ amount: Int) { balance += amount } }
let account = Account()
// expect: await account.balance == 1
@main struct Main { static func main() async { await account.deposit(1) } }
