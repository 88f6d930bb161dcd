FIRRTL version 1.1.0
circuit MultiplyAccumulate :
  module MultiplyAccumulate :
    input clock : Clock
    input reset : UInt<1>
    output io : {flip in : {valid : UInt<1>, bits : {a : SInt<8>, b : SInt<8>}}, flip clear : UInt<1>, sum : SInt<20>, rounded : SInt<12>}

    reg product : SInt, clock @[MultiplyAccumulate.scala 17:20]
    reg valid : UInt<1>, clock with :
      reset => (reset, UInt<1>("h0")) @[MultiplyAccumulate.scala 18:22]
    reg sum : SInt<20>, clock with :
      reset => (reset, SInt<20>("h0")) @[MultiplyAccumulate.scala 19:20]
    node _product_T = mul(io.in.bits.a, io.in.bits.b) @[MultiplyAccumulate.scala 20:27]
    product <= _product_T @[MultiplyAccumulate.scala 20:11]
    valid <= io.in.valid @[MultiplyAccumulate.scala 21:9]
    node _base_T = asSInt(UInt<1>("h0")) @[MultiplyAccumulate.scala 22:34]
    node base = mux(io.clear, _base_T, sum) @[MultiplyAccumulate.scala 22:17]
    node _sum_T = add(base, product) @[MultiplyAccumulate.scala 24:17]
    node _sum_T_1 = tail(_sum_T, 1) @[MultiplyAccumulate.scala 24:17]
    node _sum_T_2 = asSInt(_sum_T_1) @[MultiplyAccumulate.scala 24:17]
    when valid : @[MultiplyAccumulate.scala 23:15]
      sum <= _sum_T_2 @[MultiplyAccumulate.scala 24:9]
    else when io.clear : @[MultiplyAccumulate.scala 25:23]
      sum <= SInt<1>("h0") @[MultiplyAccumulate.scala 26:9]
    io.sum <= sum @[MultiplyAccumulate.scala 28:10]
    node _io_rounded_T = add(sum, SInt<9>("h80")) @[MultiplyAccumulate.scala 29:22]
    node _io_rounded_T_1 = tail(_io_rounded_T, 1) @[MultiplyAccumulate.scala 29:22]
    node _io_rounded_T_2 = asSInt(_io_rounded_T_1) @[MultiplyAccumulate.scala 29:22]
    node _io_rounded_T_3 = shr(_io_rounded_T_2, 8) @[MultiplyAccumulate.scala 29:33]
    io.rounded <= _io_rounded_T_3 @[MultiplyAccumulate.scala 29:14]
