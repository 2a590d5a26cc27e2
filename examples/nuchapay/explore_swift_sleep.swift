// What is refreshed while a reader sleeps.
actor Cache {
    private(set) var value = 1

    func refresh() {
        value += 1
    }

    func readTwice() async -> Bool {
        let before = value
        try? await Task.sleep(for: .milliseconds(50))
        return before == value
    }
}

let cache = Cache()

@main
struct Main {
    static func main() async {
        async let same = cache.readTwice()
        await cache.refresh()
        let isSame = await same
        print(isSame)
    }
}
