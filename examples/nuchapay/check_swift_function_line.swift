func main_line7() async {}

@main struct Main {
    static func main() async {
        await main_line7()
    }
}
