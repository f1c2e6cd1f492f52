enum Direction: String, CaseIterable { case north = "N", south = "S"; case east, west }
indirect enum Expression<Value> {
    case literal(Value)
    case sum(Expression, Expression), product(of: Expression, and: Expression)
    case call(name: String, arguments: [Expression] = [], then: (Value) -> Value)
    static let zero = Self.none
    case none
    var isLeaf: Bool { switch self { case .literal, .none: return true; case .sum, .product, .call: return false } }
    enum Kind: UInt8 { case a = 1, b = 0x2, c = 3 }
}
enum Empty { }
@frozen enum Bits: Int { case one = 1; @available(*, unavailable) case two = 2 }
