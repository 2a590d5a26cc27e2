// Nothing in Swift catches what ends the process: here a sum that is out of its range.
actor Counter {
    private(set) var many = 9223372036854775806

    func grow(_ k: Int) throws -> Int {
        many += k
        return many
    }
}

let counter = Counter()

@main
struct Main {
    static func main() async {
        print((try? await counter.grow(1)) ?? 0)
        print((try? await counter.grow(1)) ?? 0)
    }
}
