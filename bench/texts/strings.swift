let empty = "", space = " "
let escapes = "\\ \" \n \r \t \0 \' \u{48} \u{1F600}"
let brackets = "([{<}])", pounds = "# not ##", slashes = "// no /* comment */"
let joined = "a" + "b" +
    "c"
let path = "C:\\folder\\", last = "ends with a quote\""
