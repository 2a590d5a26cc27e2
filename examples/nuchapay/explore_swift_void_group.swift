// Children that give a value, in a group whose children give none: Swift lets it go.
actor Counter {
    private(set) var count = 0

    func increment() -> Int {
        count += 1
        return count
    }
}

let counter = Counter()

// expect: counter.count == 2

@main
struct Main {
    static func main() async {
        await withTaskGroup(of: Void.self) { group in
            group.addTask { _ = await counter.increment() }
            group.addTask { _ = await counter.increment() }
        }
        print(await counter.count)
    }
}
