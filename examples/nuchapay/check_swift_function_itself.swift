func down(_ x: Int) -> Int {
    if x == 0 { return 0 }
    return down(x - 1)
}

actor Box {
    private(set) var x = 0
    func set() { x = down(3) }
}

let box = Box()

@main struct Main {
    static func main() async {
        await box.set()
    }
}
