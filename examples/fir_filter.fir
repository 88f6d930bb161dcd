FIRRTL version 1.1.0
circuit FirFilter :
  module FirFilter :
    input clock : Clock
    input reset : UInt<1>
    output io : {flip in : {valid : UInt<1>, bits : SInt<8>}, out : {valid : UInt<1>, bits : SInt<12>}}

    wire _line_WIRE : SInt<8>[3] @[FirFilter.scala 17:29]
    _line_WIRE[0] <= asSInt(UInt<8>("h0")) @[FirFilter.scala 17:29]
    _line_WIRE[1] <= asSInt(UInt<8>("h0")) @[FirFilter.scala 17:29]
    _line_WIRE[2] <= asSInt(UInt<8>("h0")) @[FirFilter.scala 17:29]
    reg line : SInt<8>[3], clock with :
      reset => (reset, _line_WIRE) @[FirFilter.scala 17:21]
    when io.in.valid : @[FirFilter.scala 18:21]
      line[0] <= io.in.bits @[FirFilter.scala 19:13]
      line[1] <= line[0] @[FirFilter.scala 20:44]
      line[2] <= line[1] @[FirFilter.scala 20:44]
    node _products_T = mul(io.in.bits, asSInt(UInt<3>("h7"))) @[FirFilter.scala 23:58]
    node _products_T_1 = mul(line[0], asSInt(UInt<4>("h5"))) @[FirFilter.scala 23:58]
    node _products_T_2 = mul(line[1], asSInt(UInt<4>("h5"))) @[FirFilter.scala 23:58]
    node _products_T_3 = mul(line[2], asSInt(UInt<3>("h7"))) @[FirFilter.scala 23:58]
    wire products : SInt[4] @[FirFilter.scala 23:25]
    products[0] <= _products_T @[FirFilter.scala 23:25]
    products[1] <= _products_T_1 @[FirFilter.scala 23:25]
    products[2] <= _products_T_2 @[FirFilter.scala 23:25]
    products[3] <= _products_T_3 @[FirFilter.scala 23:25]
    node _sum_T = add(products[0], products[1]) @[FirFilter.scala 24:35]
    node _sum_T_1 = add(products[2], products[3]) @[FirFilter.scala 24:35]
    node sum = add(_sum_T, _sum_T_1) @[FirFilter.scala 24:35]
    io.out.valid <= io.in.valid @[FirFilter.scala 26:16]
    io.out.bits <= sum @[FirFilter.scala 27:15]
