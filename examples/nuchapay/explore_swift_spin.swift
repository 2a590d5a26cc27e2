// A loop without a wait, which ends where its task is cancelled: it may spin until then.
actor Worker {
    func spin() -> Int {
        var n = 0
        while !Task.isCancelled { n += 1 }
        return n
    }
}
let worker = Worker()
@main struct Main {
    static func main() async {
        let task = Task.detached { await worker.spin() }
        task.cancel()
        print(await task.value)
    }
}
