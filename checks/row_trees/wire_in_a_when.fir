circuit T :
  module T :
    input a : UInt<1>
    input c : UInt<1>
    output o : UInt<1>
    o <= a
    when c :
      wire w : UInt<1>
      w <= not(a)
      node n = w
      o <= n
