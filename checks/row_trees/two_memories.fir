circuit T :
  module T :
    input clock : Clock
    input a : UInt<2>
    input k : UInt<1>
    input u : UInt<4>
    output o : UInt<4>
    output p : UInt<4>
    inst i of A
    mem m :
      data-type => UInt<4>
      depth => 3
      read-latency => 0
      write-latency => 1
      readwriter => x
    i.clock <= clock
    i.a <= a
    i.k <= k
    i.u <= u
    m.x.addr <= a
    m.x.en <= UInt<1>(1)
    m.x.clk <= clock
    m.x.wmode <= k
    m.x.wdata <= u
    m.x.wmask <= UInt<1>(1)
    o <= m.x.rdata
    p <= i.d
  module A :
    input clock : Clock
    input a : UInt<2>
    input k : UInt<1>
    input u : UInt<4>
    output d : UInt<4>
    mem n :
      data-type => UInt<4>
      depth => 4
      read-latency => 0
      write-latency => 1
      reader => r
      writer => w
    n.r.addr <= a
    n.r.en <= UInt<1>(1)
    n.r.clk <= clock
    n.w.addr <= a
    n.w.en <= k
    n.w.clk <= clock
    n.w.data <= u
    n.w.mask <= UInt<1>(1)
    d <= n.r.data
