FIRRTL version 1.1.0
circuit T :
  module T :
    input a : UInt<4>
    input b : UInt<4>
    output o : UInt<4>
    o <= xor(a, b)
