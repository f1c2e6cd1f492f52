// A declaration macro whose functions get names that nothing else has, at file scope and among members.
#funcUnique

let side = 2
let sum = #stringify(side + 1)

struct Square {
    #funcUnique
    var side = 2
}
