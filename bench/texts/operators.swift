prefix operator ---
postfix operator %%
infix operator <+>: AdditionPrecedence
infix operator ..*
infix operator ≈≈
prefix func --- (value: Int) -> Int { -(-(-value)) }
postfix func %% (value: Double) -> Double { value / 100 }
func <+> <T>(one: [T], other: [T]) -> [T] { one + other }
func ..*(low: Int, high: Int) -> [Int] { Array(low ... high) }
func ≈≈ (one: Double, other: Double) -> Bool { abs(one - other) < 1e-9 }
func < (one: Box, other: Box) -> Bool { one.size < other.size }
struct Box { var size = 0; static prefix func ! (box: Box) -> Bool { box.size == 0 } }
