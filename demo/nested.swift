// Uses whose replies hold uses. demo/plug answers those of this file first, then those of the replies, level by level.
@freestanding(expression) macro stringify<T>(_ value: T) -> (T, String) = #externalMacro(module: "ShellMacros", type: "Stringify")
@freestanding(expression) macro pair<T>(_ value: T) -> [(T, String)] = #externalMacro(module: "ShellMacros", type: "Pair")
@freestanding(declaration, names: named(described)) macro described<T>(_ value: T) = #externalMacro(module: "ShellMacros", type: "Described")

let sides = #pair(width)

struct Square {
    var side: Int
    #described(side)
}
