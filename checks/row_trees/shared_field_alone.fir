circuit T :
  module T :
    input a : {a : UInt<4>, b : UInt<4>}
    output o : {b : UInt<4>, c : UInt<4>}
    o <- a
