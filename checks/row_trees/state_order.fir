circuit T :
  module T :
    input clk : Clock
    input a : UInt<1>
    input none : UInt<0>
    output z : UInt<4>
    output k : Clock
    reg u : UInt<2>, clk
    when a :
      inst b of C
      b.clk <= clk
    reg v : UInt<2>, clk
    mem n :
      data-type => UInt<5>
      depth => 4
      read-latency => 1
      write-latency => 1
      reader => r
      writer => w
    mem nothing :
      data-type => UInt<0>
      depth => 4
      read-latency => 1
      write-latency => 1
      reader => r
      writer => w
    n is invalid
    nothing is invalid
    z is invalid
    k is invalid
  module C :
    input clk : Clock
    mem m :
      data-type => UInt<3>
      depth => 4
      read-latency => 1
      write-latency => 1
      reader => r
      writer => w
    reg s : UInt<2>, clk
    reg none : UInt<0>, clk
    m is invalid
