let add = { (a: Int, b: Int) -> Int in a + b }
let nested = { { { 1 }() }() }()
let captured = { [weak self, unowned other, copy = value] (x: Int) async throws -> Int in guard let self else { return 0 }; return x }
let chain = list.map { $0 * 2 }.filter { $0 > 1 }.reduce(0) { $0 + $1 }
let several = animate { $0 } completion: { _ in } failure: { error in print(error) }
let sorted = names.sorted(by: >), keyed = people.map(\.name.first?.count)
func run() { perform(on: queue) { [self] in work() } then: { done() } }
