actor Account {
    private(set) var balance = 1
    func keep() { balance = self.balance }
}
let account = Account()
@main struct Main {
    static func main() async { await account.keep(); print(await account.balance) }
}
