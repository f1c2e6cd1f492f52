#!/usr/bin/env python3
"""Makes Swift sources of declarations without a macro: nested types, bodies, accessors, strings, comments.

    outline_source.py BYTES > FILE
"""

import itertools
import sys

# NN is the number of the declaration. Each is of a form of its own, and whole lines.
FORMS = (
    '''import Module_NN

/// What a /* nested /* comment */ with "quotes" */ says is /* no /* code */ */ here.
@available(macOS 13, iOS 16, *) @frozen
public struct Table_NN<Key: Hashable, Value>: Equatable, Sendable where Value: Equatable & Sendable {
    public enum Fault: Error, CaseIterable { case missing, twice(Key, at: Int), full(limit: Int = 1 << 20) }
    struct Row<Cell> where Cell: Comparable {
        struct Place: Hashable { let line: Int, column: Int }
        var place: Place, cells: [Dictionary<String, Array<Cell>>] = []
        subscript(index: Int) -> Cell? { index < cells.count ? cells[index].first?.value.first : nil }
    }
    private var rows: [Key: Row<Int>] = [:], count_NN: Int = 0
    let (first, (second, third)): (Int, (Int, Int)) = (1, (2, 3))
}
''',
    '''/* Counting /* comments nest */ by steps */
@MainActor open class Counter_NN: Base, Countable {
    @Published private(set) var count: Int = NN { willSet { print("from \\(count) to \\(newValue)") } didSet { changes += 1 } }
    lazy var doubled: Int = count * 2, changes: Int = 0
    open var half: Int {
        get { count / 2 }
        @inlinable set(value) { count = value * 2 }
    }
    var isAtEnd: Bool { count >= limit && !(changes < 3) }
    public required init(from start: Int = 0) { count = start; super.init() }
    deinit { log["end", default: []].append(count) }
}
''',
    '''@discardableResult
public func run_NN<T: Comparable>(_ values: [T], until end: Int = NN, make: @escaping (T) -> Bool = { _ in true }) async throws -> [T] {
    guard end > 0, let last = values.last else { throw Fault.missing }
    var kept: [T] = []
    for (index, value) in values.enumerated() where value < last {
        if make(value) { kept.append(value) } else if index % 3 == 0 { continue }
        while kept.count > end { kept.removeLast() }
    }
    switch (kept.count, end) {
    case (0, _): return []
    case let (some, most) where some > most: fallthrough
    default: break
    }
    return try await kept.filter { $0 > last }.map { value in try change(value, [1, 2, 3].map { $0 * 2 }) }
}
''',
    '''let title_NN = "number \\(NN), \\("an \\("inner") one"), and \\([1, 2, 3].map { "<\\($0)>" }.joined(separator: ", "))"
let raw_NN = #"no \\(escape), but \\#(NN) "quoted" \\n words"#, plain_NN = "\\\\ and \\" and \\u{1F600}"
let lines_NN = """
    Two lines with \\(title_NN) and "quotes",
    and // what is no /* comment.
    """
''',
    '''extension Table_NN: Collection where Key == String, Value: Codable {
    typealias Index = Int
    static func == (one: Self, other: Self) -> Bool { one.rows.count == other.rows.count }
    static func <<> <T>(table: Self, more: T) -> [T] where T: Hashable { [more] }
    subscript(position: Int) -> (key: Key, value: Value) { get throws { try at(position) } }
    func index(after i: Int) -> Int { i + 1 } // the next one
}
''',
    '''protocol Countable_NN<Step>: AnyObject {
    associatedtype Step: Comparable & Sendable = Int where Step: Hashable
    init(from start: Step)
    var count: Int { get async throws }
    func step(by amount: Step) -> Self where Step: Numeric
    static subscript(index: Int) -> Step? { get set }
}
''',
    '''indirect enum Expression_NN<Value>: CustomStringConvertible {
    case literal(Value), negated(Expression_NN)
    case sum(Expression_NN, Expression_NN), `repeat`(Expression_NN, times: Int = 2)
    var description: String {
        switch self {
        case .literal(let value): return "\\(value)"
        case .negated(let inner): return "-(\\(inner))"
        default: return "größer als \\(#line)"
        }
    }
}
''',
    '''infix operator <<>: AdditionPrecedence
precedencegroup Step_NN { higherThan: AdditionPrecedence; associativity: left }
typealias Change_NN<T> = @Sendable (Int, inout [T]) throws -> Void
actor Store_NN { var counters: [Counter_NN] = []; func add(_ one: Counter_NN) { counters.append(one) } }
var total_NN: Int { get { 1 + 2 * (3 - 4) } set { print(newValue) } }
''',
)


def declarations():
    """Declarations without end, each of another name."""
    for number in itertools.count():
        yield FORMS[number % len(FORMS)].replace("NN", str(number // len(FORMS)))


def main():
    left = int(sys.argv[1])
    for text in declarations():
        piece = text.encode("utf-8")
        if left < len(piece):
            break
        sys.stdout.buffer.write(piece)
        left -= len(piece)
    sys.stdout.buffer.write(b"\n" * left)


if __name__ == "__main__":
    main()
