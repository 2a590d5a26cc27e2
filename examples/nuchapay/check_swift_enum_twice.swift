enum Fault: Error { case one }
actor Fault {
    func f() -> Int { 1 }
}
let a = Fault()
@main struct Main {
    static func main() async {
        print(await a.f())
    }
}
