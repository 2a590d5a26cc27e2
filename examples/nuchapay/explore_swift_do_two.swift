// A do with several statements: what follows a fault is passed over, and the catch has statements.
enum Failure: Error { case odd }

actor Box {
    private(set) var x = 0

    func add(_ k: Int) throws -> Int {
        if k == 3 { throw Failure.odd }
        x += k
        return x
    }

    func isSmall(_ k: Int) throws -> Bool {
        if k == 4 { throw Failure.odd }
        return x < 10
    }

    func clear() throws {
        if x > 100 { throw Failure.odd }
        x = 0
    }
}

let box = Box()

actor Client {
    private(set) var log = 0

    func run(_ k: Int) async -> Int {
        var y = 0
        do {
            log += 1
            let a = try await box.add(k)
            y = a
            let small = try await box.isSmall(k)
            if small {
                y += 10
            } else {
                return -5
            }
            y += 100
            try await box.clear()
            y += 1000
        } catch {
            log += 100
            y -= 1
            if k == 3 { return y * 2 }
        }
        log += 10000
        return y
    }
}

let client = Client()

@main struct Main {
    static func main() async {
        print(await client.run(3), await client.run(4), await client.run(1), await client.run(20))
        print(await client.log, await box.x)
    }
}
