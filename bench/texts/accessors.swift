struct Circle {
    var radius: Double
    var area: Double { .pi * radius * radius }
    var diameter: Double {
        get { radius * 2 }
        set { radius = newValue / 2 }
    }
    var checked: Int {
        get throws { try check() }
    }
    var remote: Int { get async throws(Failure) { await load() } }
    var stored: [Int] {
        _read { yield values }
        _modify { yield &values }
    }
    var renamed: Double { @inlinable get { 1 } nonmutating set(value) { print(value) } }
    @Wrapped var both: Int { mutating get { 0 } __consuming set { } }
    var initial: Int { @storageRestrictions(initializes: radius) init(value) { radius = Double(value) } get { 0 } set { } }
}
var global: Int { get { 1 } }
