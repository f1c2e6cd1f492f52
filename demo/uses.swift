// Several uses of the macro that macros.swift declares. One process answers them all, in the order of their places.
let side = 2, name = "square"
let sum = #stringify(side + 1)
let (text, code) = #stringify("\(name) of \(side)")

struct Square {
    @Logged(#stringify(side)) var side: Int { didSet { print(#stringify(oldValue < side)) } }
    func scaled(by factor: (Int, String) = #stringify(side * 2)) -> [(Int, String)] {
        [#stringify(factor.0), /* of the largest */ #stringify(side * factor.0)]
    }
}

let sides = #stringify([
    1, // the smallest
    2,
])
