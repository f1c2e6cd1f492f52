var watched: Int = 0 {
    willSet { print("from \(watched) to \(newValue)") }
    didSet { if oldValue != watched { changed() } }
}
var named = [1, 2, 3].map { $0 } { didSet(old) { print(old) } }
class Model {
    @Published var title: String = "" { @MainActor didSet { save() } }
    static var shared = Model(), count: Int = 0 { willSet(next) { } }
    lazy var items: [Item] = { load() }() { didSet { } }
}
