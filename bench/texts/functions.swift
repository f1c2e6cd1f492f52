func plain() { }
func parameters(_ a: Int, b c: inout String, d: Int..., e: @escaping (Int) -> Void = { _ in }, f: @autoclosure () -> Bool = true) -> (Int, String) { (a, c) }
func thrower() throws(Failure) -> Never { fatalError("\(#function)") }
func opaque() -> some Collection<Int> { [1] }
func existential(_ any: any Error & Sendable) -> (any Error)? { any }
func curried(_ a: Int) -> (Int) -> (Int) -> Int { { b in { c in a + b + c } } }
func inner() -> Int { func deeper() -> Int { func deepest() -> Int { 3 }; return deepest() }; return deeper() }
func packed<each T>(_ t: repeat each T) -> (repeat each T) { (repeat each t) }
func body()
    async
    throws
    -> [String: (Int, [Int])]
{
    [:]
}
func without() -> Int
