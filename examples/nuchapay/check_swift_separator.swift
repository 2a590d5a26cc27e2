actor Account { private(set) var balance = 0; func deposit(_ amount: Int) { balance += amount balance += 1 } }
let account = Account()
@main struct Main { static func main() async { await account.deposit(1) } }
