let a = 1; let b = 2; ; ;
; func f() { }; struct S { var x = 0; ; var y = 1; }; enum E { case a; case b; };
class C { ; init() { }; deinit { }; };;
import A; import B
var z: Int { 1 }; typealias T = Int
