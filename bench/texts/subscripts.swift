struct Matrix<Scalar: Numeric> {
    let rows: Int, columns: Int
    var grid: [Scalar]
    subscript(row: Int, column: Int) -> Scalar {
        get { grid[row * columns + column] }
        set { grid[row * columns + column] = newValue }
    }
    subscript<R: RangeExpression>(_ range: R) -> [Scalar] where R.Bound == Int { Array(grid[range]) }
    static subscript(size: Int) -> Matrix { Matrix(rows: size, columns: size, grid: []) }
    subscript(dynamicMember name: String) -> Int { get throws { 0 } }
}
