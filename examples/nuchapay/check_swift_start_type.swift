actor Account { var isOpen: Bool = 1; func close() { isOpen = false } }
let account = Account()
@main struct Main { static func main() async { await account.close() } }
