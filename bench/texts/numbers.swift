let decimal = 1_000_000, zero = 0, hex = 0xdead_BEEF, octal = 0o755, binary = 0b1010_0101
let fraction = 3.25, small = 1.5e-3, large = 2E10, hexFloat = 0x1.8p3, both = -4.5e+6
let member = 3.description, tuple = pair.0.1, range = 0...3, half = 1..<9, dotted = x.0
let odd = 1.e, shift = 1<<2, minus = -1 - -1
