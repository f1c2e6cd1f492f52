public final class A { }
open class B { public internal(set) var x = 0; fileprivate static let y = 1; private(set) lazy var z = 2 }
package struct C { mutating func a() { }; nonmutating func b() { }; consuming func c() { }; borrowing func d() { } }
class D: B { override class var e: Int { 0 }; override final func f() { }; required convenience init() { fatalError() }; dynamic func g() { } }
struct E { weak var a: D?; unowned let b: D; unowned(unsafe) let c: D; nonisolated(unsafe) static var d = 0 }
indirect enum F { case g(F) }
@objc protocol G { @objc optional func h(); static prefix func - (x: Self) -> Self }
distributed actor H { distributed func i() { }; isolated deinit { } }
