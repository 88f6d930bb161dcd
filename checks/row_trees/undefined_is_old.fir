circuit T :
  module T :
    input clock : Clock
    input a : UInt<1>
    input u : UInt<4>
    output o : UInt<4>
    mem m :
      data-type => UInt<4>
      depth => 2
      read-latency => 1
      write-latency => 1
      reader => r
      writer => w
      read-under-write => undefined
    m.r.addr <= a
    m.r.en <= UInt<1>(1)
    m.r.clk <= clock
    m.w.addr <= a
    m.w.en <= UInt<1>(1)
    m.w.clk <= clock
    m.w.data <= u
    m.w.mask <= UInt<1>(1)
    o <= m.r.data
