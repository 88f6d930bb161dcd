circuit Accumulator :
  module Accumulator :
    input clock : Clock
    input a : UInt<8>
    output o : UInt<8>
    output following : UInt<8>
    reg sum : UInt<8>, clock
    node turned = xor(sum, a)
    sum <= turned
    o <= sum
    following <= turned
