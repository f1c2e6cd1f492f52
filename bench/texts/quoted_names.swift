let `default` = 1, `class`: Int = 2, `an odd name` = 3
func `repeat`(`in`: Int, for `while`: Int) -> Int { `in` + `while` }
enum `Type` { case `self`, `init`(`let`: Int), `switch` }
struct `struct`<`T`> { var `var`: `T`; typealias `Self2` = `T` }
extension `Type` { static var `protocol`: `Type`.`Type` { .`self` } }
let é = `é`
