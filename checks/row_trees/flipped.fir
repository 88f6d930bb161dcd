circuit T :
  module T :
    input x : {d : UInt<4>, flip r : UInt<1>}
    output y : {d : UInt<4>, flip r : UInt<1>}
    y <= x
