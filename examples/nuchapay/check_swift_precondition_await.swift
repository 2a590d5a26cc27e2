actor A {
    private(set) var on = true
}
let a = A()
@main struct Main {
    static func main() async {
        precondition(await a.on)
        print(1)
    }
}
