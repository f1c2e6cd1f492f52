func words() {
    print(#file, #fileID, #filePath, #line, #column, #function, #dsohandle)
    if #available(iOS 16, *), #unavailable(macOS 12) { }
    let selector = #selector(Named.action(_:)), path = #keyPath(Named.name)
    #warning("a warning")
    #sourceLocation(file: "a.swift", line: 3)
    let color = #colorLiteral(red: 1, green: 0, blue: 0, alpha: 1), isolation = #isolation
}
let file: String = #file, line = #line
@available(*, deprecated) let selected = #selector(getter: Named.name)
func defaults(file: StaticString = #fileID, line: UInt = #line) { }
