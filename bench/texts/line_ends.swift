let a = 1
let b = 2let c = 3


	let d	=4
func f() {
    // a comment    let s = """
        text
        """
}// no end