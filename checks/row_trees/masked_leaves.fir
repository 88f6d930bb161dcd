circuit T :
  module T :
    input clock : Clock
    input a : UInt<1>
    input p : UInt<1>
    input q : UInt<1>
    input u : UInt<4>
    input v : UInt<4>
    output o : {x : UInt<4>, y : UInt<4>}
    mem m :
      data-type => {x : UInt<4>, y : UInt<4>}
      depth => 2
      read-latency => 0
      write-latency => 1
      reader => r
      writer => w
    m.r.addr <= a
    m.r.en <= UInt<1>(1)
    m.r.clk <= clock
    m.w.addr <= a
    m.w.en <= UInt<1>(1)
    m.w.clk <= clock
    m.w.data.x <= u
    m.w.data.y <= v
    m.w.mask.x <= p
    m.w.mask.y <= q
    o <= m.r.data
