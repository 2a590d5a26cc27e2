// A function with async leaves the actor that calls it, so another turn may come in; one without does not.
func successor(_ x: Int) async -> Int { x + 1 }

func after(_ x: Int) -> Int { x + 1 }

actor Counter {
    private(set) var lost = 0
    private(set) var kept = 0

    func bump() async {
        lost = await successor(lost)
        kept = after(kept)
    }
}

let counter = Counter()

@main struct Main {
    static func main() async {
        await withTaskGroup(of: Void.self) { group in
            for _ in 0..<2 {
                group.addTask { await counter.bump() }
            }
            await group.waitForAll()
        }
        print(await counter.lost, await counter.kept)
    }
}
