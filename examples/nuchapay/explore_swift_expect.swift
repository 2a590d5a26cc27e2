// A search as one types: each asks a server, and shows what it answers.
actor Model {
    var query = 0
    var results = 0
    func search(_ text: Int) async {
        query = text
        await Task.yield()
        results = text
    }
}

let model = Model()
// expect: model.results == model.query

@main struct Main {
    static func main() async {
        let first = Task { await model.search(1) }
        let second = Task { await model.search(2) }
        await first.value
        await second.value
    }
}
