let plain = #"a "quoted" word, \n as it is"#
let escape = #"a line\#nand \#(plain) here"#
let more = ##"a "# that is no end, \#(no) and \##(plain)"##
let pattern = #"^\s*(\w+)\s*=\s*"(.*)"$"#
let mixed = [#"a"#, ##"b"##, "c", ###"""
    d "## and """## no end \###(plain)
    """###]
