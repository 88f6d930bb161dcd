circuit T :
  module T :
    input clock : Clock
    input a : UInt<4>
    input rst : AsyncReset
    wire w : UInt<4>
    reg r : UInt<4>, clock with : (reset => (rst, w))
    w <= a
    r <= r
