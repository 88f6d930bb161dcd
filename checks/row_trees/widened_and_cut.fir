circuit T :
  module T :
    input a : SInt<2>
    output o : SInt<4>
    output p : SInt<2>
    o <= a
    p <= o
