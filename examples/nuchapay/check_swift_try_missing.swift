enum Failure: Error { case odd }
actor Meter { func check(_ k: Int) throws { if k == 1 { throw Failure.odd } } }
let meter = Meter()
@main struct Main { static func main() async { await meter.check(2) } }
