FIRRTL version 1.1.0
circuit always :
  module always :
    input posedge : Clock
    input reg : UInt<4>
    input wire_0 : UInt<4>
    output _n1 : UInt<4>
    output posedge_1 : UInt<4>
    reg reg_0 : UInt<4>, posedge
    reg wire : UInt<4>, posedge
    reg _n0 : UInt<4>, posedge
    reg posedge_0 : UInt<4>, posedge
    reg_0 <= xor(reg, reg_0)
    wire <= or(wire_0, not(wire))
    _n0 <= reg_0
    posedge_0 <= and(_n0, xor(wire, posedge_0))
    _n1 <= xor(_n0, wire)
    posedge_1 <= posedge_0
