actor Counter {
    private(set) var value = 0
    // invariant: value <= 2

    func add(_ amount: Int) async {
        let before = value
        await Task.yield()
        value = before + amount
    }
}

let counter = Counter()

@main
struct Main {
    static func main() async {
        async let first: Void = counter.add(1)
        async let second: Void = counter.add(2)
        await first
        await second
        print(await counter.value)
    }
}
