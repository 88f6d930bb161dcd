circuit T :
  module T :
    input clock : Clock
    input a : UInt<2>
    input b : UInt<2>
    input u : UInt<4>
    input v : UInt<4>
    input w : UInt<1>
    output o : UInt<4>
    mem m :
      data-type => UInt<4>
      depth => 3
      read-latency => 1
      write-latency => 1
      reader => r
      writer => p
      writer => q
      read-under-write => new
    m.r.addr <= a
    m.r.en <= UInt<1>(1)
    m.r.clk <= clock
    m.p.addr <= a
    m.p.en <= w
    m.p.clk <= clock
    m.p.data <= u
    m.p.mask <= UInt<1>(1)
    m.q.addr <= b
    m.q.en <= w
    m.q.clk <= clock
    m.q.data <= v
    m.q.mask <= UInt<1>(1)
    o <= m.r.data
