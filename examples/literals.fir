FIRRTL version 1.1.0
circuit Literals :
  module Literals :
    input a : UInt<8>
    output o : UInt<4>
    output wide : UInt<8>
    output masked : UInt<8>
    output tagged : UInt<12>
    output field : UInt<2>
    output ones : UInt<128>
    o <= UInt<8>(255)
    wide <= UInt<4>("h9")
    masked <= and(a, UInt<8>("b11110000"))
    tagged <= cat(UInt<4>("ha"), a)
    field <= bits(UInt<8>(6), 2, 1)
    ones <= not(UInt<128>(0))
