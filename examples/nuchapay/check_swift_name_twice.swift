actor Account { private(set) var balance = 0; func get() -> Int { let sum = balance; let sum = 1; return sum } }
let account = Account()
@main struct Main { static func main() async { print(await account.get()) } }
