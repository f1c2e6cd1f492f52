extension Int { var isEven: Bool { self % 2 == 0 } }
extension Array: Container where Element: Equatable & Sendable { typealias Item = Element }
extension Swift.Dictionary<String, [Int]>.Keys { func sorted() -> [String] { sorted(by: <) } }
extension Optional where Wrapped == String { var orEmpty: String { self ?? "" } }
private extension Collection where Element: Collection, Element.Element: Hashable {
    static subscript(key: Int) -> Int { key }
    struct Inner { struct Innermost { let deep = true } }
}
@retroactive extension Box: @unchecked Sendable, Codable { }
