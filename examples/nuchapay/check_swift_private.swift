actor Account { private var balance = 0; func deposit(_ amount: Int) { balance += amount } }
let account = Account()
@main struct Main { static func main() async { await account.deposit(1); print(await account.balance) } }
