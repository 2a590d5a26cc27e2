actor Cache {
    private(set) var values: [Int] = []
}

let cache = Cache()

@main
struct Main {
    static func main() async {
        print(1)
    }
}
