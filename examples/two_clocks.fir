FIRRTL version 1.1.0
circuit TwoClocks :
  module TwoClocks :
    input fast : Clock
    input a : UInt<5>
    input slow : Clock
    output o : UInt<5>
    output both : UInt<10>
    reg x : UInt<5>, fast
    reg y : UInt<5>, slow
    x <= y
    y <= x
    reg z : UInt<10>, fast
    z <= cat(xor(x, a), y)
    o <= y
    both <= z
