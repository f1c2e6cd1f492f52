// Declarations of many kinds, and no macro use: the file is printed as it is.
import Foundation

@available(macOS 10.15, *) public final class Store<Key: Hashable>: Base, Sendable where Key: Comparable {
    private(set) var count: Int { get { values.count } }
    var limit = 10 { didSet { trim() } }
    let names: [String] = ["a", "b"], empty = ""
    subscript(key: Key) -> Int? { values[key] }
    init?(limit: Int) throws { guard limit > 0 else { return nil }; self.limit = limit }
    deinit {}
    func trim() async -> Bool {
        /* a /* nested */ comment */
        if count > limit { return true }
        return "\(count) of \(limit)" != #"no \(limit)"#
    }
    enum Change { case added(Key), removed; indirect case both(Change, Change) }
}

extension Store: CustomStringConvertible { var description: String { """
    "\(count)"
    """ } }
infix operator <>: AdditionPrecedence
func <> (a: Int, b: Int) -> Int { a * b }
typealias Counts = [String: Int]; actor Log { var lines = [String]() }
