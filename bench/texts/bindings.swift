let a = 1, b: Int = 2, (c, d) = (3, 4), ((e, _), f): ((Int, Int), Int) = ((5, 6), 7)
var g: Int, h: String?
let _ = compute()
let (x: i, y: j) = point
var k = a < b, l = 3
let m = [1, 2, 3].map { $0 + 1 }.filter { $0 > 2 }
let n = if a > 1 { "more" } else { "less" }
let o: (Int, Int) -> Int = { x, y in x + y }, p = { 4 }()
let q = a
    + b
    .advanced(by: 1)
let r = condition
    ? one
    : other, `default` = 3
