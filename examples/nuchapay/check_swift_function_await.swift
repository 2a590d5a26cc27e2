func one() async -> Int { 1 }

@main struct Main {
    static func main() async {
        print(one())
    }
}
