func statements(_ values: [Int?]) throws -> Int {
    var total = 0
    outer: for case let value? in values where value > 0 {
        if value > 10 { continue outer } else if value == 3 { break outer } else { total += value }
        while total < 5 { total += 1 }
        repeat { total -= 1 } while total > 20
    }
    switch (total, values.first) {
    case (0, _): return 0
    case (1 ..< 5, .some(let first?)) where first > 2: fallthrough
    case let (a, b) where a > (b ?? 0) ?? 1: total = a
    default: break
    }
    do { try risky() } catch let error as Failure where error.code == 3 { throw error } catch { print("\(error)") }
    defer { close() }
    guard let file = open(), case .ready = file.state, #available(macOS 13, *) else { return -1 }
    if let a, let b = a.b, a < b { }
    #if DEBUG
    print(#file, #line, #column)
    #else
    print("no")
    #endif
    let local = 1; var other = local; other &+= 1; _ = other as? Int; _ = other is Int
    return [1, 2, 3][total & 1] >> 1
}
