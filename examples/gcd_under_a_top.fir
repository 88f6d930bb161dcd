FIRRTL version 1.1.0
circuit GcdUnderATop :
  module Gcd :
    input clock : Clock
    input reset : UInt<1>
    output io : {flip in : {flip ready : UInt<1>, valid : UInt<1>, bits : {a : UInt<8>, b : UInt<8>}}, out : {flip ready : UInt<1>, valid : UInt<1>, bits : UInt<8>}}

    reg x : UInt<8>, clock @[Gcd.scala 21:14]
    reg y : UInt<8>, clock @[Gcd.scala 22:14]
    reg busy : UInt<1>, clock with :
      reset => (reset, UInt<1>("h0")) @[Gcd.scala 23:21]
    node _io_in_ready_T = eq(busy, UInt<1>("h0")) @[Gcd.scala 25:18]
    io.in.ready <= _io_in_ready_T @[Gcd.scala 25:15]
    node _io_out_valid_T = eq(x, UInt<1>("h0")) @[Gcd.scala 26:30]
    node _io_out_valid_T_1 = eq(y, UInt<1>("h0")) @[Gcd.scala 26:43]
    node _io_out_valid_T_2 = or(_io_out_valid_T, _io_out_valid_T_1) @[Gcd.scala 26:38]
    node _io_out_valid_T_3 = and(busy, _io_out_valid_T_2) @[Gcd.scala 26:24]
    io.out.valid <= _io_out_valid_T_3 @[Gcd.scala 26:16]
    node _io_out_bits_T = or(x, y) @[Gcd.scala 27:20]
    io.out.bits <= _io_out_bits_T @[Gcd.scala 27:15]
    when busy : @[Gcd.scala 29:14]
      node _T = gt(x, y) @[Gcd.scala 30:12]
      when _T : @[Gcd.scala 30:17]
        node _x_T = sub(x, y) @[Gcd.scala 31:14]
        node _x_T_1 = tail(_x_T, 1) @[Gcd.scala 31:14]
        x <= _x_T_1 @[Gcd.scala 31:9]
      else :
        node _y_T = sub(y, x) @[Gcd.scala 33:14]
        node _y_T_1 = tail(_y_T, 1) @[Gcd.scala 33:14]
        y <= _y_T_1 @[Gcd.scala 33:9]
    node _T_1 = and(io.in.ready, io.in.valid) @[Decoupled.scala 50:35]
    when _T_1 : @[Gcd.scala 36:20]
      x <= io.in.bits.a @[Gcd.scala 37:7]
      y <= io.in.bits.b @[Gcd.scala 38:7]
      busy <= UInt<1>("h1") @[Gcd.scala 39:10]
    node _T_2 = and(io.out.ready, io.out.valid) @[Decoupled.scala 50:35]
    when _T_2 : @[Gcd.scala 41:21]
      busy <= UInt<1>("h0") @[Gcd.scala 42:10]

  module GcdUnderATop :
    input clock : Clock
    input reset : UInt<1>
    output io : {flip in : {flip ready : UInt<1>, valid : UInt<1>, bits : {a : UInt<8>, b : UInt<8>}}, out : {flip ready : UInt<1>, valid : UInt<1>, bits : UInt<8>}, results : UInt<4>}

    inst gcd of Gcd @[GcdUnderATop.scala 15:19]
    gcd.clock <= clock
    gcd.reset <= reset
    reg results : UInt<4>, clock with :
      reset => (reset, UInt<4>("h0")) @[GcdUnderATop.scala 16:24]
    gcd.io.in <= io.in @[GcdUnderATop.scala 18:9]
    io.out.bits <= gcd.io.out.bits @[GcdUnderATop.scala 19:10]
    io.out.valid <= gcd.io.out.valid @[GcdUnderATop.scala 19:10]
    gcd.io.out.ready <= io.out.ready @[GcdUnderATop.scala 19:10]
    node _T = and(gcd.io.out.ready, gcd.io.out.valid) @[Decoupled.scala 50:35]
    when _T : @[GcdUnderATop.scala 21:25]
      node _results_T = add(results, UInt<1>("h1")) @[GcdUnderATop.scala 22:24]
      node _results_T_1 = tail(_results_T, 1) @[GcdUnderATop.scala 22:24]
      results <= _results_T_1 @[GcdUnderATop.scala 22:13]
    io.results <= results @[GcdUnderATop.scala 24:14]
