let poem = """
    Two "roads" diverged,
      and ""a quote"" more \
    goes on, \"""
    \(first + """
        inner \(second)
        """)
    """
let empty = """
    """
func text() -> String { """
    in a body: { ( [ " ' ` #
    """ }
