actor Log {
    private(set) var sum = 0
    func note() { sum += 1 }
}
let log = Log()
actor B {
    var log = 3
    func f() async { await log.note() }
}
let b = B()
@main struct Main {
    static func main() async {
        await b.f()
        print(await b.log)
    }
}
