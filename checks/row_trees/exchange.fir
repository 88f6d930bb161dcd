circuit T :
  module T :
    input c : Clock
    input d : Clock
    output e : Clock
    output f : Clock
    wire w : Clock
    reg r : UInt<4>, c
    reg s : UInt<4>, w
    reg t : UInt<4>, f
    e <= w
    f is invalid
    w <= d
    r <= s
    s <= r
    t <= r
