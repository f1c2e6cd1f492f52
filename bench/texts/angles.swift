let shifted = 1 << 3 >> 2, less = 1 < 2, more = (3 > 2)
var pairs: Dictionary<String, Array<Int>> = Dictionary<String, Array<Int>>(), after = 4
let arrow: (Array<Int>) -> (Int) -> Bool = { _ in { $0 > 0 } }
struct Range<Bound: Comparable>: Equatable, Hashable where Bound: Strideable { }
func compare<T: Comparable>(_ a: T, _ b: T) -> Bool { a < b || a > b || a <= b && !(a >= b) }
let closed: ClosedRange<Int> = 0 ... 3, open: Swift.Range<Int> = 0..<3
