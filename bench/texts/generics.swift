struct Stack<Element> where Element: Hashable {
    private var items: [Element] = []
    mutating func push(_ item: Element) { items.append(item) }
    func map<Result, Failure: Error>(_ change: (Element) throws(Failure) -> Result) throws(Failure) -> Stack<Result> where Result: Hashable { fatalError() }
}
func merge<each Value, Key: Comparable & Hashable>(_ first: [Key: (repeat each Value)], _ second: [Key: (repeat each Value)]) -> [Key: (repeat each Value)] { first }
class Tree<Key, Value>: Collection where Key: Comparable, Value: Equatable, Key == Value {
    var left: Tree<Key, Value>?, right: Tree<Key, [Optional<Value>]>? = nil
}
typealias Table<Row> = Dictionary<String, Array<Set<Row>>> where Row: Hashable
let nested: Array<Array<Array<Int>>> = [[[1]]]
