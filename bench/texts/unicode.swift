let größe = 1, 変数 = "値", данные = ["ключ": 1], ñandú_2 = größe
let emoji = "😀 👨‍👩‍👧 é", π = 3.14159
infix operator ⊕: AdditionPrecedence
func ⊕ (один: Int, 二: Int) -> Int { один ^ 二 }
prefix operator ¬
prefix func ¬ (b: Bool) -> Bool { !b }
struct 点 { var 座標: (横: Double, 縦: Double) = (0, 0) } // 日本語 /* 中 */
let sum = 1 ⊕ 2, not = ¬true, both = 3 ≠≈ 4 // ≠
