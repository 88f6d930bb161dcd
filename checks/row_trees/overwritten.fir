circuit T :
  module T :
    input a : UInt<1>
    output o : UInt<1>
    wire w : UInt<1>
    w <= w
    w <= a
    o <= w
