// Methods of the own actor with returns within loops within methods.
actor A {
    private(set) var x = 0
    private func find(_ k: Int) -> Int {
        for i in 0..<10 {
            x += 1
            if i * i >= k { return i }
        }
        return -1
    }
    private func twice(_ k: Int) -> Int {
        var s = 0
        var i = 0
        while i < 4 {
            i += 1
            let v = find(k + i)
            if v < 0 { return -1 }
            guard v != 2 else { return s + v * 1000 }
            s += v
        }
        return s
    }
    func f(_ k: Int) -> Int {
        if k == 0 { return twice(0) + twice(1) }
        for j in 1...3 {
            if twice(k + j) < 0 { return j }
        }
        return twice(k) - find(k)
    }
}
let a = A()
@main struct Main {
    static func main() async {
        print(await a.f(0), await a.f(3), await a.f(90), await a.f(8), await a.x)
    }
}
