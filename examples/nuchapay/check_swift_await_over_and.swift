actor A {
    private(set) var on = true
    private(set) var off = false
}
let a = A()
@main struct Main {
    static func main() async {
        let x = await a.on && a.off
        print(x)
    }
}
