protocol Container<Item>: AnyObject, Sendable where Item: Equatable {
    associatedtype Item
    associatedtype Index: Comparable = Int where Index: Hashable
    var count: Int { get }
    var mutable: Int { get nonmutating set }
    var thrown: Int { get throws }
    init?(_ items: [Item])
    subscript(_ index: Index) -> Item { get set }
    static func make() -> Self
    mutating func append(_ item: Item)
    func each(_ body: (Item) throws -> Void) rethrows
}
protocol Marker { }
protocol Both: Container, Marker where Self.Index == Int { typealias Pair = (Item, Item) }
