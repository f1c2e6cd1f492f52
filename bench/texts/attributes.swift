@available(iOS 16, macOS 13.0, *) @objc(Named:with:) final class Named: NSObject { }
@available(*, deprecated, message: "use the other (really)", renamed: "other()") func old() { }
@_spi(Private) @inline(__always) public func fast() { }
@propertyWrapper struct Clamped<Value: Comparable> {
    @usableFromInline var stored: Value
    var wrappedValue: Value { @inline(never) get { stored } set { stored = newValue } }
}
struct Settings {
    @Clamped(0 ... 10) var level: Int = 3
    @Wrappers.Lazy<Int>(make: { 4 }) var later: Int
    @Namespace.Outer.Inner @Other
    private
    var many: Int
    @convention(c) func odd() { }
}
@main enum Program { static func main() async { } }
