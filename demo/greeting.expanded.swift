@freestanding(expression) macro stringify<T>(_ value: T) -> (T, String) = #externalMacro(module: "SampleMacros", type: "StringifyMacro")

let a = "Hello, "
let b = "world"

let r = ((a + b, "a + b"))
