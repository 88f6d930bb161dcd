FIRRTL version 1.1.0
circuit BcdCounter :
  module BcdCounter :
    input clock : Clock
    input reset : UInt<1>
    output io : {flip load : {valid : UInt<1>, bits : UInt<4>[3]}, flip enable : UInt<1>, digits : UInt<4>[3], carry : UInt<1>}

    wire _digits_WIRE : UInt<4>[3] @[BcdCounter.scala 14:31]
    _digits_WIRE[0] <= UInt<4>("h0") @[BcdCounter.scala 14:31]
    _digits_WIRE[1] <= UInt<4>("h0") @[BcdCounter.scala 14:31]
    _digits_WIRE[2] <= UInt<4>("h0") @[BcdCounter.scala 14:31]
    reg digits : UInt<4>[3], clock with :
      reset => (reset, _digits_WIRE) @[BcdCounter.scala 14:23]
    wire carries : UInt<1>[4] @[BcdCounter.scala 15:21]
    carries[0] <= io.enable @[BcdCounter.scala 16:14]
    node _carries_1_T = eq(digits[0], UInt<4>("h9")) @[BcdCounter.scala 18:48]
    node _carries_1_T_1 = and(carries[0], _carries_1_T) @[BcdCounter.scala 18:34]
    carries[1] <= _carries_1_T_1 @[BcdCounter.scala 18:20]
    node _carries_2_T = eq(digits[1], UInt<4>("h9")) @[BcdCounter.scala 18:48]
    node _carries_2_T_1 = and(carries[1], _carries_2_T) @[BcdCounter.scala 18:34]
    carries[2] <= _carries_2_T_1 @[BcdCounter.scala 18:20]
    node _carries_3_T = eq(digits[2], UInt<4>("h9")) @[BcdCounter.scala 18:48]
    node _carries_3_T_1 = and(carries[2], _carries_3_T) @[BcdCounter.scala 18:34]
    carries[3] <= _carries_3_T_1 @[BcdCounter.scala 18:20]
    when carries[0] : @[BcdCounter.scala 19:23]
      node _digits_0_T = add(digits[0], UInt<1>("h1")) @[BcdCounter.scala 20:57]
      node _digits_0_T_1 = tail(_digits_0_T, 1) @[BcdCounter.scala 20:57]
      node _digits_0_T_2 = mux(carries[1], UInt<1>("h0"), _digits_0_T_1) @[BcdCounter.scala 20:23]
      digits[0] <= _digits_0_T_2 @[BcdCounter.scala 20:17]
    when carries[1] : @[BcdCounter.scala 19:23]
      node _digits_1_T = add(digits[1], UInt<1>("h1")) @[BcdCounter.scala 20:57]
      node _digits_1_T_1 = tail(_digits_1_T, 1) @[BcdCounter.scala 20:57]
      node _digits_1_T_2 = mux(carries[2], UInt<1>("h0"), _digits_1_T_1) @[BcdCounter.scala 20:23]
      digits[1] <= _digits_1_T_2 @[BcdCounter.scala 20:17]
    when carries[2] : @[BcdCounter.scala 19:23]
      node _digits_2_T = add(digits[2], UInt<1>("h1")) @[BcdCounter.scala 20:57]
      node _digits_2_T_1 = tail(_digits_2_T, 1) @[BcdCounter.scala 20:57]
      node _digits_2_T_2 = mux(carries[3], UInt<1>("h0"), _digits_2_T_1) @[BcdCounter.scala 20:23]
      digits[2] <= _digits_2_T_2 @[BcdCounter.scala 20:17]
    when io.load.valid : @[BcdCounter.scala 23:23]
      digits <= io.load.bits @[BcdCounter.scala 24:12]
    io.digits <= digits @[BcdCounter.scala 27:13]
    io.carry <= carries[3] @[BcdCounter.scala 28:12]
