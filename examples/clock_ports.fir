FIRRTL version 1.1.0
circuit ClockPorts :
  module ClockPorts :
    input a : UInt<3>
    input first : Clock
    input none : UInt<0>
    output o : UInt<7>
    input unused : Clock
    output nothing : UInt<0>
    input b : UInt<1>
    input last : Clock
    output p : UInt<1>
    reg empty : UInt<0>, first
    reg x : UInt<3>, last
    reg flag : UInt<1>, first
    empty <= a
    x <= cat(empty, xor(a, x))
    flag <= not(cat(b, empty))
    o <= cat(cat(x, empty), cat(a, flag))
    nothing <= empty
    p <= and(flag, cat(none, b))
