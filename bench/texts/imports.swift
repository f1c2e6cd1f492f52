import Foundation
import struct Foundation.Date
import class Dispatch.DispatchQueue
@testable import Core
@_exported import Kernel; import Network
public import Numerics
