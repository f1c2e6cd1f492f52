// Macros of the sample plug-in. A file like this is named by --macros, and its macros are those of the source, too.
@freestanding(expression) macro stringify<T>(_ value: T) -> (T, String) = #externalMacro(module: "SampleMacros", type: "StringifyMacro")
@freestanding(declaration) macro funcUnique() = #externalMacro(module: "SampleMacros", type: "FuncUniqueMacro")
@attached(peer, names: prefixed(_)) macro AddPeer() = #externalMacro(module: "SampleMacros", type: "AddPeerMacro")
