class Animal {
    let name: String
    static var count = 0
    init(name: String) { self.name = name; Animal.count += 1 }
    init?(optional name: String?) { guard let name else { return nil }; self.name = name }
    init!<T>(generic value: T) where T: CustomStringConvertible { name = value.description }
    deinit { Animal.count -= 1 }
    func speak() -> String { "..." }
}
final class Dog: Animal, Comparable {
    override init(name: String) { super.init(name: name) }
    convenience init() { self.init(name: "dog") }
    override func speak() -> String { "\(super.speak()) woof" }
    static func < (one: Dog, other: Dog) -> Bool { one.name < other.name }
    class Puppy: Dog { }
}
