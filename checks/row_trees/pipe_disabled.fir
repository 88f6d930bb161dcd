circuit T :
  module T :
    input clock : Clock
    input a : UInt<2>
    input e : UInt<1>
    output o : UInt<4>
    mem m :
      data-type => UInt<4>
      depth => 3
      read-latency => 1
      write-latency => 1
      reader => r
    m.r.addr <= a
    m.r.en <= e
    m.r.clk <= clock
    o <= m.r.data
