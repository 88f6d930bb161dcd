FIRRTL version 1.1.0
circuit RegisterConnects :
  module RegisterConnects :
    input clock : Clock
    input a : UInt<4>
    input b : UInt<12>
    output o : UInt<8>
    reg wide : UInt<8>, clock
    reg narrow : UInt<3>, clock
    reg fixed : UInt<6>, clock
    wide <= b
    narrow <= UInt<3>(5)
    wide <= not(wide)
    o <= fixed
    fixed <= a
    narrow <= xor(b, narrow)
    wide <= xor(a, bits(wide, 3, 0))
    fixed <= UInt<9>("h1a5")
    o <= cat(wide, narrow)
