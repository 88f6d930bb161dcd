circuit T :
  module T :
    input i : UInt<1>
    input x : UInt<4>
    output o : UInt<4>[2]
    o[i] <= x
