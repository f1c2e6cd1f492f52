precedencegroup Exponent {
    higherThan: MultiplicationPrecedence
    lowerThan: BitwiseShiftPrecedence
    associativity: right
    assignment: false
}
infix operator **: Exponent
precedencegroup Alone { }
public func ** (base: Double, power: Double) -> Double { pow(base, power) }
