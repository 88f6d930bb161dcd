circuit T :
  module T :
    input c : Clock
    input d : Clock
    input s : UInt<1>
    wire w : Clock
    when s :
      w <= c
    else :
      w <= d
