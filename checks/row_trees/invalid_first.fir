circuit T :
  module T :
    input c : Clock
    input s : UInt<1>
    wire w : Clock
    w is invalid
    when s :
      w <= c
