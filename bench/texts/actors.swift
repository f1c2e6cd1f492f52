actor Account {
    private var balance: Decimal = 0
    init() { }
    func deposit(_ amount: Decimal) async throws { balance += amount; try await log(amount) }
    nonisolated var id: ObjectIdentifier { ObjectIdentifier(self) }
}
@globalActor actor Main { static let shared = Main() }
let actor = 3
var task: Task<Void, Never>? = Task { await account.deposit(1) }
func transfer(from one: isolated Account, to other: Account) async rethrows {
    async let first = one.balance, second = other.balance
    for await value in values where value > 0 { print(await first, await second, value) }
    await withTaskGroup(of: Int.self) { group in group.addTask { 1 } }
}
