// What a do catches of calls that give an Int, a Bool and nothing.
enum Failure: Error { case odd, late }
actor A {
    private(set) var n = 0
    func i(_ k: Int) throws -> Int { if k < 0 { throw Failure.odd }; return k }
    func t(_ k: Int) throws -> Bool { if k < 0 { throw Failure.late }; return k > 3 }
    func v(_ k: Int) throws { if k < 0 { throw Failure.odd }; n += k }
}
let a = A()
actor B {
    private(set) var log = 0
    func fi(_ k: Int) async -> Int {
        var x = 0
        do { x = try await a.i(k) } catch { log += 1; x = -9 }
        return x
    }
    func fb(_ k: Int) async -> Bool {
        do { return try await a.t(k) } catch { log += 10; return false }
    }
    func fv(_ k: Int) async {
        do { try await a.v(k) } catch { log += 100 }
    }
}
let b = B()
@main struct Main {
    static func main() async {
        print(await b.fi(4), await b.fi(-2), await b.fi(0), await b.fb(5), await b.fb(1), await b.fb(-1))
        await b.fv(3)
        await b.fv(-3)
        print(await b.log, await a.n)
    }
}
