actor Meter {
    func read() async throws -> Int { 1 }
    func twice(_ n: Int) -> Int { n * 2 }
}
let meter = Meter()
@main struct Main {
    static func main() async {
        async let first = meter.read()
        print((try? await meter.twice(first)) ?? 7)
    }
}
