func x() -> Int { 1 }

actor Box {
    private(set) var x = 0
    func set() { x = x() }
}

let box = Box()

@main struct Main {
    static func main() async {
        await box.set()
    }
}
