import SwiftUI
struct ContentView: View {
    @State private var isOn = false
    @Environment(\.colorScheme) var scheme
    @Binding var names: [String]
    var body: some View {
        VStack(alignment: .leading, spacing: 8) {
            ForEach(names, id: \.self) { name in Text("Hello, \(name)!").font(.title).padding([.top, .bottom], 4) }
            Toggle(isOn: $isOn) { Label("On", systemImage: "bolt") }
            if isOn { Image("\(scheme == .dark ? "dark" : "light")") } else { EmptyView() }
        }
        .task { await load() }
    }
}
@resultBuilder enum Builder { static func buildBlock(_ parts: String...) -> String { parts.joined() } }
