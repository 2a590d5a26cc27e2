// A door that is opened twice where two guards do so in turn.
actor Door {
    private(set) var isOpen = false

    func open() {
        precondition(!isOpen, "it is open")
        isOpen = true
    }
}
let door = Door()
@main struct Main {
    static func main() async {
        let first = Task { await door.open() }
        let second = Task {
            await Task.yield()
            await door.open()
        }
        await first.value
        await second.value
        print(await door.isOpen)
    }
}
