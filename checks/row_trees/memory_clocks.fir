circuit T :
  module T :
    input c : Clock
    inst i of A
    i.c <= c
  module A :
    input c : Clock
    inst u of B
    wire x : Clock
    mem m :
      data-type => UInt<4>
      depth => 2
      read-latency => 0
      write-latency => 1
      reader => p q r s
    u.c <= c
    x <= c
    m is invalid
    m.q.clk <= x
    m.r.clk <= c
    m.s.clk <= u.k
  module B :
    input c : Clock
    output k : Clock
    k <= c
