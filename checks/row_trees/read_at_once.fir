circuit T :
  module T :
    input clock : Clock
    input a : UInt<2>
    input e : UInt<1>
    input k : UInt<1>
    input u : UInt<4>
    output o : UInt<4>
    mem m :
      data-type => UInt<4>
      depth => 3
      read-latency => 0
      write-latency => 1
      reader => r
      writer => w
    m.r.addr <= a
    m.r.en <= e
    m.r.clk <= clock
    m.w.addr <= a
    m.w.en <= e
    m.w.clk <= clock
    m.w.data <= u
    m.w.mask <= k
    o <= m.r.data
