circuit T :
  module T :
    input i : UInt<2>
    output o : UInt<4>[3]
    input x : UInt<4>
    output p : UInt<4>
    o[i] <= x
    p <= o[i]
