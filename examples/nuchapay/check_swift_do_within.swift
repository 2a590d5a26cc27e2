enum Failure: Error { case odd }

actor Box {
    private(set) var x = 0

    func add(_ k: Int) throws {
        if k == 3 { throw Failure.odd }
        x += k
    }
}

let box = Box()

@main struct Main {
    static func main() async {
        do {
            for k in 0..<4 {
                try await box.add(k)
            }
            print(await box.x)
        } catch {
            print(-1)
        }
    }
}
