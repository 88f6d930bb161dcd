circuit T :
  module T :
    input a : UInt<1>
    output o : UInt<1>
    o <= a
    when a :
      inst b of B
      b.i <= a
      o <= b.o
  module B :
    input i : UInt<1>
    output o : UInt<1>
    o <= not(i)
