circuit T :
  module T :
    input clock : Clock
    input a : UInt<1>
    output o : UInt<4>
    reg r : UInt<4>, clock
    mem m :
      data-type => {x : UInt<4>, y : UInt<4>}
      depth => 2
      read-latency => 1
      write-latency => 1
      reader => p
    m.p.addr <= a
    m.p.en <= UInt<1>(1)
    m.p.clk <= clock
    r <= m.p.data.x
    o <= r
