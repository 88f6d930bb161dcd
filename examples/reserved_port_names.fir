FIRRTL version 1.1.0
circuit table :
  module table :
    input wire : UInt<4>
    input wire_ : UInt<4>
    input assign : UInt<4>
    input assign_0 : UInt<4>
    input _n0 : UInt<4>
    output reg : UInt<4>
    output _n2 : UInt<4>
    reg <= xor(wire, not(wire_))
    _n2 <= or(and(assign, assign_0), _n0)
