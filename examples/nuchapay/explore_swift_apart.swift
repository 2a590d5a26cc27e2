// Names as those that the reader makes, beside the ones that it does make.
actor Other {
    private(set) var y = 1

    func more(_ k: Int) -> Int {
        y += 1
        return y + k
    }
}

actor Box {
    private(set) var x_ = 1
    private(set) var print_line_1 = 2

    func get_x_(_ k: Int) -> Int {
        let y_d1 = k
        let print_line = k
        var z = 0
        if k > 0 {
            let y = 1
            z = y
        } else {
            let y = 2
            z = y
        }
        return z + y_d1 + print_line + print_line_1
    }

    func ask(_ k: Int) async -> Int {
        let m13 = 10
        let m14 = 20
        let m15 = 30
        let m16 = 40
        return await other.more(k) + m13 + m14 + m15 + m16
    }

    func run() async -> Int {
        let a = get_x_(1)
        let b = get_x_(5)
        let c = await ask(0)
        return a + b + c + x_
    }
}

let other = Other()
let box = Box()

@main
struct Main {
    static func main() async {
        print(await box.run())
        print(await box.x_)
        print(await box.get_x_(0))
    }
}
