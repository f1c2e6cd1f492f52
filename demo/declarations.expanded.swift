// A declaration macro whose functions get names that nothing else has, at file scope and among members.

func $sX105d0_E7__localfMu_() {}


let side = 2
let sum = ((side + 1, "side + 1"))

struct Square {
    
func $sX183d0_E7__localfMu_() {}

    var side = 2
}
