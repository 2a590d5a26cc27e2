actor Account { private(set) var balance = 0; func deposit(_ amount: Int) { balance += amount } }
let account = Account()
@main struct Main { static func main() async { var sum = 1; sum += 1; let task = Task { await account.deposit(sum) }; await task.value } }
