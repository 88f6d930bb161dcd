circuit T :
  module P :
    input x : UInt<4>
    output io : {d : UInt<4>, flip r : UInt<1>}
    output seen : UInt<1>
    io.d <= x
    seen <= io.r
  module Q :
    input io : {d : UInt<4>, flip r : UInt<1>}
    output y : UInt<4>
    y <= io.d
    io.r <= eq(io.d, UInt<4>(5))
  module T :
    input x : UInt<4>
    output y : UInt<4>
    output seen : UInt<1>
    inst p of P
    inst q of Q
    p.x <= x
    q.io <= p.io
    y <= q.y
    seen <= p.seen
