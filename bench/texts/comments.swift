// A line
/// A doc comment of `Point`, with "quotes" and (brackets that do not count
/* A block /* nested /* thrice */ and // no line */ here */
struct Point { // behind a bracket
    /* before */ var x /* between */ : Int /* behind */ = /* an end: */ 0
    /** another kind **/ var y: Int = 0 /* last */
}
/**/ let one = 1 /***/
/* the last ends the file */