let optional: Int?? = nil, implicit: Int! = 1, metatype: Int.Type = Int.self, any: (any P).Type
let function: @Sendable (Int, inout [String]) async throws -> ((Int) -> Void)? = { _, _ in nil }
let tuple: (a: Int, b: (c: [Int: [String]], d: Set<Int>)) = (1, ([:], []))
typealias Handler<T> = @MainActor (Result<T, any Error>) -> Void
func suppressed<T: ~Copyable>(_ value: borrowing T) where T: ~Escapable { }
struct Unique: ~Copyable { consuming func end() { discard self } }
let composed: any A & B & C = make(), inlined: [3 of Int] = [1, 2, 3]
func sent(_ value: sending Box, _ other: consuming Box) -> sending Box { value }
