// The turns of the scripts `spin`, `calls` and `fan` as Swift actors, with Swift's own runtime and its pool of threads. No journal is kept,
// and nothing is undone: an invariant is a precondition at the end of a turn. It prints how many turns there were, and the microseconds
// that they took.
import Dispatch

actor Counter {
    var turns = 0

    func spin(_ times: Int) async -> Int {
        var left = times
        while left > 0 {
            left -= 1
            turns += 1
            precondition(turns >= 0)
            await Task.yield()
        }
        return turns
    }
}

actor Adder {
    var total = 0

    func gain(_ amount: Int) -> Int {
        total += amount
        precondition(total >= 0)
        return total
    }
}

actor Asker {
    var answers = 0
    let adder: Adder

    init(_ adder: Adder) { self.adder = adder }

    func ask(_ times: Int) async -> Int {
        var left = times, sum = 0
        while left > 0 {
            left -= 1
            sum = await adder.gain(1)
            answers += 1
            precondition(answers >= 0)
        }
        return sum
    }

    func child(_ times: Int) async -> Int {
        var left = times, sum = 0
        while left > 0 {
            left -= 1
            sum += await adder.gain(1)
        }
        return sum
    }

    func fan() async -> Int {
        await withTaskGroup(of: Int.self) { group in
            for _ in 0..<16 { group.addTask { await self.child(60) } }
            var sum = 0
            for _ in 0..<16 { sum += await group.next()! }
            return sum
        }
    }
}

func each(_ count: Int, _ work: @escaping @Sendable () async -> Int) async {
    let tasks = (0..<count).map { _ in Task { await work() } }
    for task in tasks { _ = await task.value }
}

@main struct Main {
    static func main() async {
        let start = DispatchTime.now().uptimeNanoseconds
        var turns = 0
        switch CommandLine.arguments.last {
        case "calls":
            let asker = Asker(Adder())
            await each(1000) { await asker.ask(490) }
            turns = 1000 * (2 * 490 + 1)
        case "fan":
            let asker = Asker(Adder())
            await each(60) { await asker.fan() }
            turns = 60 * (16 * (2 * 60 + 1) + 17)
        default:
            let counter = Counter()
            await each(1000) { await counter.spin(990) }
            turns = 1000 * 991
        }
        print("run \(turns) turns")
        print("run \((DispatchTime.now().uptimeNanoseconds - start) / 1000) us")
    }
}
