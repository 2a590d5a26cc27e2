// Two actors of one executor that call each other.
import Dispatch

// executor: fifo
final class Desk: SerialExecutor {
    private let queue = DispatchQueue(label: "desk")
    func enqueue(_ job: consuming ExecutorJob) {
        let job = UnownedJob(job)
        queue.async { job.runSynchronously(on: self.asUnownedSerialExecutor()) }
    }
    func asUnownedSerialExecutor() -> UnownedSerialExecutor { UnownedSerialExecutor(ordinary: self) }
}
let desk = Desk()
actor A {
    nonisolated var unownedExecutor: UnownedSerialExecutor { desk.asUnownedSerialExecutor() }
    private(set) var n = 0
    func f(_ k: Int) async -> Int {
        n = n * 10 + k
        let v = await b.g()
        n = n * 10 + v
        return n
    }
}
actor B {
    nonisolated var unownedExecutor: UnownedSerialExecutor { desk.asUnownedSerialExecutor() }
    private(set) var m = 0
    func g() -> Int { m += 1; return m }
}
let a = A()
let b = B()
@main struct Main {
    static func main() async {
        async let x = a.f(5)
        async let y = a.f(7)
        let p = await x
        let q = await y
        print(p, q, await a.n, await b.m)
    }
}
