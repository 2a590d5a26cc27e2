actor A {
    func f(_ k: Int, _ k: Int) -> Int { k }
}
let a = A()
@main struct Main {
    static func main() async {
        print(await a.f(1, 2))
    }
}
