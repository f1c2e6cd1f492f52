// A file of each kind of declaration, without a macro. It comes out as it is.
import Foundation

/* Operators of the counter /* comments nest */ stand first. */
precedencegroup StepPrecedence { higherThan: AdditionPrecedence; associativity: left }
infix operator +++ : StepPrecedence
prefix operator √

typealias Change = (Int) throws -> Void
let (first, (second, _)) = (1, (2, 3)), limit: Int = 1 << 10
private var log: [String: [Int]] = [:]

public protocol Countable<Step>: AnyObject {
    associatedtype Step: Comparable & Sendable = Int
    init(from start: Step)
    var count: Int { get async throws }
    subscript(index: Int) -> Step? { get set }
    func step(by amount: Step) -> Self where Step: Numeric
}

@frozen public struct Pair<Left, Right: Hashable>: Equatable where Left: Equatable {
    var left: Left, right: Right
    static func == (one: Self, other: Self) -> Bool { one.left == other.left && one.right == other.right }
    static func +++ <T>(pair: Pair<Left, T>, more: T) -> [T] where T: Hashable { [pair.right, more] }
}

@MainActor open class Counter: Countable {
    private(set) var count = 0 { willSet { print("from \(count) to \(newValue, default: "?")") } didSet { changes += 1 } }
    lazy var doubled: Int = count * 2, changes: Int = 0
    var isAtEnd: Bool { count >= limit }
    var half: Int {
        get { count / 2 }
        @inlinable mutating set(value) { count = value * 2 }
    }
    public required init(from start: Int = 0) { count = start }
    deinit { log["end", default: []].append(count) }
    subscript(index: Int) -> Int? {
        get { index < count ? index : nil }
        set { if let value = newValue { count = value } }
    }
    @discardableResult func step(by amount: Int = 1) -> Self { count += amount; return self }
    class func named<T>(_ name: String, _ make: () -> T) rethrows -> [T] { try [name].map { _ in make() } }
}

indirect enum Event: Error, CaseIterable {
    case started, stopped(at: Int), `repeat`(Event, times: Int = 2)
    static var allCases: [Event] { [.started, .stopped(at: 0)] }
}

actor Store { var counters: [Counter] = []; func add(_ one: Counter) { counters.append(one) } }

extension Counter: CustomStringConvertible {
    nonisolated public var description: String {
        let plain = "count: \(count + [1, 2].map { $0 * 2 }.reduce(0, +))\n", raw = #"no \(escape), but \#(limit) "quoted""#
        return plain + raw + """
            Lines with \("an \("inner") one") and "quotes",
            and \u{1F600} an end.
            """
    }
}

@available(macOS 13, *)
func run(_ counter: Counter, until end: Int) async throws -> Result<[Int], Event> {
    guard end > 0, !counter.isAtEnd else { throw Event.stopped(at: end) }
    repeat { counter.step(by: 1) } while counter.count < end
    return .success((0 ..< end).filter { $0 % 2 == 0 }.map { number in number * 2 })
}
