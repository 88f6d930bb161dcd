circuit T :
  module T :
    input clock : Clock
    input rst : AsyncReset
    output o : UInt<4>
    reg r : UInt<4>, clock with : (reset => (rst, UInt<4>(9)))
    r <= tail(add(r, UInt<1>(1)), 1)
    o <= r
