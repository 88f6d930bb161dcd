circuit T :
  module T :
    input x : UInt<4>
    output y : UInt<4>
    output seen : UInt<1>
    inst p of M
    inst q of M
    p.up.d <= x
    seen <= p.up.r
    q.up <= p.down
    y <= q.down.d
    q.down.r <= eq(q.down.d, UInt<4>(5))
  module M :
    input up : {d : UInt<4>, flip r : UInt<1>}
    output down : {d : UInt<4>, flip r : UInt<1>}
    down <= up
