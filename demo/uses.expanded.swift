// Several uses of the macro that macros.swift declares. One process answers them all, in the order of their places.
let side = 2, name = "square"
let sum = ((side + 1, "side + 1"))
let (text, code) = (("\(name) of \(side)", "\"\\(name) of \\(side)\""))

struct Square {
    @Logged(((side, "side"))) var side: Int { didSet { print(((oldValue < side, "oldValue < side"))) } }
    func scaled(by factor: (Int, String) = ((side * 2, "side * 2"))) -> [(Int, String)] {
        [((factor.0, "factor.0")), /* of the largest */ ((side * factor.0, "side * factor.0"))]
    }
}

let sides = (([
    1, // the smallest
    2,
], "[\n    1, // the smallest\n    2,\n]"))
