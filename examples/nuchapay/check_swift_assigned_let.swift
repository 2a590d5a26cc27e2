actor Account { private(set) var balance = 0; func deposit(_ amount: Int) { let sum = balance; sum = sum + amount; balance = sum } }
let account = Account()
@main struct Main { static func main() async { await account.deposit(1) } }
