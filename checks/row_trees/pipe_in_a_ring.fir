circuit T :
  module B :
    input i : UInt<1>
    output o : UInt<1>
    o <= not(i)
  module M :
    input clock : Clock
    input a : UInt<1>
    output d : UInt<1>
    mem m :
      data-type => UInt<1>
      depth => 2
      read-latency => 1
      write-latency => 1
      reader => r
    m.r.addr <= a
    m.r.en <= UInt<1>(1)
    m.r.clk <= clock
    d <= m.r.data
  module T :
    input clock : Clock
    output o : UInt<1>
    inst b of B
    inst x of M
    x.clock <= clock
    x.a <= b.o
    b.i <= x.d
    o <= x.d
