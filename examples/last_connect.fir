FIRRTL version 1.1.0
circuit LastConnect :
  module LastConnect :
    input a : UInt<4>
    input b : UInt<4>
    output o : UInt<4>
    output p : UInt<4>
    o <= a
    p <= and(a, b)
    skip
    o <= UInt<4>(5)
    p <= b
    o <= xor(a, b)
