// Two instances of one actor, with different starts and steps.
actor A {
    private(set) var n: Int
    let step: Int
    private(set) var isOn = false
    init(n: Int, _ step: Int) { self.n = n; self.step = step }
    func up() -> Int { n += step; isOn.toggle(); return n }
    // invariant: n >= -100
}
let a = A(n: 1, 10)
let b = A(n: -1, -10)
@main struct Main {
    static func main() async {
        let x = await a.up() + b.up()
        let y = await b.up()
        print(x, y, await a.n, await b.n, await a.isOn, await b.isOn)
    }
}
