circuit T :
  module T :
    input i : UInt<2>
    input x : UInt<4>
    output o : UInt<4>[3]
    output p : UInt<4>
    o[0] <= UInt<4>(1)
    o[1] <= UInt<4>(2)
    o[2] <= UInt<4>(3)
    o[i] <= x
    p <= o[i]
