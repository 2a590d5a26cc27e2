actor Account { private(set) var balance = 9223372036854775808 }
let account = Account()
@main struct Main { static func main() async { print(await account.balance) } }
