let name = "x", count = 3
let simple = "\(name) has \(count)"
let nested = "a \("b \("c \(count)") d") e"
let call = "\(name.map { "<\($0)>" }.joined(separator: ", ")) and \((1 + 2) * (3 - (4)))"
let labels = "\(count, format: .number.precision(.fractionLength(2))) of \([1, 2, 3].count) { } \(["k": "v"]["k"]!)"
let comment = "\(count /* not ) here */ + 1) \(count // nor ) here
    + 2)"
let built_in = "\(#line) \(#file) \(#function)"
