FIRRTL version 1.1.0
circuit RegistersThatHold :
  module RegistersThatHold :
    input clock : Clock
    input a : UInt<8>
    output o : UInt<8>
    output p : UInt<6>
    reg key : UInt<8>, clock
    reg last : UInt<6>, clock
    reg unread : UInt<128>, clock
    o <= xor(a, key)
    last <= and(a, key)
    p <= last
