actor Meter { private(set) var read = 0; func next() { if read { read = 0 } } }
let meter = Meter()
@main struct Main { static func main() async { await meter.next() } }
