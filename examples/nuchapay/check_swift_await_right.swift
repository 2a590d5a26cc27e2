actor Account { private(set) var isOpen = false; private(set) var isFull = true }
let account = Account()
@main struct Main { static func main() async { let both = await account.isOpen && await account.isFull; print(both) } }
