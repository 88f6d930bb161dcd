circuit T :
  module T :
    input clock : Clock
    input reset : UInt<1>
    output o : UInt<4>
    reg r : UInt<4>, clock with : (reset => (reset, UInt<4>(0)))
    o <= r
    r <= tail(add(r, UInt<1>(1)), 1)
