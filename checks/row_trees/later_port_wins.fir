circuit T :
  module T :
    input clock : Clock
    input a : UInt<1>
    input i : UInt<1>
    input j : UInt<1>
    input k : UInt<1>
    output o : UInt<4>
    mem m :
      data-type => UInt<4>
      depth => 2
      read-latency => 0
      write-latency => 1
      writer => p
      readwriter => x
      writer => q
    m.p.addr <= a
    m.p.en <= i
    m.p.clk <= clock
    m.p.data <= UInt<4>(1)
    m.p.mask <= UInt<1>(1)
    m.x.addr <= a
    m.x.en <= UInt<1>(1)
    m.x.clk <= clock
    m.x.wmode <= j
    m.x.wdata <= UInt<4>(2)
    m.x.wmask <= UInt<1>(1)
    m.q.addr <= a
    m.q.en <= k
    m.q.clk <= clock
    m.q.data <= UInt<4>(3)
    m.q.mask <= UInt<1>(1)
    o <= m.x.rdata
