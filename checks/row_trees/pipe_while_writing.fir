circuit T :
  module T :
    input clock : Clock
    input a : UInt<2>
    input e : UInt<1>
    input k : UInt<1>
    input u : UInt<4>
    input w : UInt<1>
    output o : UInt<4>
    mem m :
      data-type => UInt<4>
      depth => 3
      read-latency => 1
      write-latency => 1
      readwriter => x
      read-under-write => new
    m.x.addr <= a
    m.x.en <= e
    m.x.clk <= clock
    m.x.wmode <= k
    m.x.wdata <= u
    m.x.wmask <= w
    o <= m.x.rdata
