actor Account { private(set) var balance = 0; func sign() -> Int { if balance > 0 { return 1 } } }
let account = Account()
@main struct Main { static func main() async { print(await account.sign()) } }
