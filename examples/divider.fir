FIRRTL version 1.1.0
circuit Divider :
  module Divider :
    input clock : Clock
    input reset : UInt<1>
    output io : {flip in : {flip ready : UInt<1>, valid : UInt<1>, bits : {dividend : UInt<8>, divisor : UInt<8>}}, out : {valid : UInt<1>, bits : {quotient : UInt<8>, remainder : UInt<8>}}}

    reg left : UInt<4>, clock with :
      reset => (reset, UInt<4>("h0")) @[Divider.scala 20:21]
    reg done : UInt<1>, clock with :
      reset => (reset, UInt<1>("h0")) @[Divider.scala 21:21]
    reg divisor : UInt<8>, clock @[Divider.scala 22:20]
    reg bits : {quotient : UInt<8>, remainder : UInt<8>}, clock @[Divider.scala 23:17]
    node idle = eq(left, UInt<1>("h0")) @[Divider.scala 25:19]
    node _shifted_T = bits(bits.quotient, 7, 7) @[Divider.scala 26:46]
    node shifted = cat(bits.remainder, _shifted_T) @[Cat.scala 31:58]
    node fits = geq(shifted, divisor) @[Divider.scala 27:22]
    node _rest_T = sub(shifted, divisor) @[Divider.scala 28:36]
    node _rest_T_1 = tail(_rest_T, 1) @[Divider.scala 28:36]
    node rest = mux(fits, _rest_T_1, shifted) @[Divider.scala 28:17]
    done <= UInt<1>("h0") @[Divider.scala 29:8]
    node _T = and(io.in.ready, io.in.valid) @[Decoupled.scala 50:35]
    node _T_1 = eq(idle, UInt<1>("h0")) @[Divider.scala 34:14]
    when _T : @[Divider.scala 30:20]
      left <= UInt<4>("h8") @[Divider.scala 31:10]
      divisor <= io.in.bits.divisor @[Divider.scala 32:13]
      bits.quotient <= io.in.bits.dividend @[Divider.scala 33:19]
      bits.remainder <= UInt<1>("h0") @[Divider.scala 33:45]
    else when _T_1 : @[Divider.scala 34:21]
      node _left_T = sub(left, UInt<1>("h1")) @[Divider.scala 35:18]
      node _left_T_1 = tail(_left_T, 1) @[Divider.scala 35:18]
      left <= _left_T_1 @[Divider.scala 35:10]
      node _done_T = eq(left, UInt<1>("h1")) @[Divider.scala 36:18]
      done <= _done_T @[Divider.scala 36:10]
      node _bits_quotient_T = bits(bits.quotient, 6, 0) @[Divider.scala 37:41]
      node _bits_quotient_T_1 = cat(_bits_quotient_T, fits) @[Cat.scala 31:58]
      bits.quotient <= _bits_quotient_T_1 @[Divider.scala 37:19]
      node _bits_remainder_T = bits(rest, 7, 0) @[Divider.scala 38:28]
      bits.remainder <= _bits_remainder_T @[Divider.scala 38:20]
    io.in.ready <= idle @[Divider.scala 41:15]
    io.out.valid <= done @[Divider.scala 42:16]
    io.out.bits <= bits @[Divider.scala 43:15]
