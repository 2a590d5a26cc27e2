actor Meter { private(set) var read = 0; func next() -> Int { read += 1; return read } }
let meter = Meter()
@main struct Main { static func main() async { let first = meter.next(); print(first) } }
