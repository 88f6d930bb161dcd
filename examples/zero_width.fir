FIRRTL version 1.1.0
circuit ZeroWidth :
  module ZeroWidth :
    input a : UInt<4>
    input none : UInt<0>
    output o : UInt<4>
    output nothing : UInt<0>
    output p : UInt<4>
    output q : UInt<2>
    output r : UInt<4>
    o <= cat(none, cat(a, none))
    nothing <= a
    p <= and(a, none)
    q <= none
    r <= xor(none, a)
