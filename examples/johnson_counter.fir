FIRRTL version 1.1.0
circuit JohnsonCounter :
  module JohnsonCounter :
    input clock : Clock
    output value : UInt<3>
    output last : UInt<1>
    reg count : UInt<3>, clock
    node top = bits(count, 2, 2)
    count <= cat(bits(count, 1, 0), not(top))
    value <= count
    last <= and(top, not(bits(count, 1, 1)))
