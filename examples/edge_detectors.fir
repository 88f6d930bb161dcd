FIRRTL version 1.1.0
circuit EdgeDetectors :
  module EdgeDetectors :
    input clock : Clock
    input reset : UInt<1>
    output io : {flip in : UInt<4>, flip clear : UInt<4>, rising : UInt<4>, falling : UInt<4>, seen : UInt<4>, any : UInt<1>}

    reg before : UInt, clock with :
      reset => (reset, UInt<4>("h0")) @[EdgeDetectors.scala 15:23]
    before <= io.in @[EdgeDetectors.scala 15:23]
    node _rising_T = not(before) @[EdgeDetectors.scala 16:25]
    node rising = and(io.in, _rising_T) @[EdgeDetectors.scala 16:22]
    node _falling_T = not(io.in) @[EdgeDetectors.scala 17:19]
    node falling = and(_falling_T, before) @[EdgeDetectors.scala 17:26]
    reg seen : UInt<4>, clock with :
      reset => (reset, UInt<4>("h0")) @[EdgeDetectors.scala 18:21]
    node _seen_T = not(io.clear) @[EdgeDetectors.scala 19:19]
    node _seen_T_1 = and(seen, _seen_T) @[EdgeDetectors.scala 19:16]
    node _seen_T_2 = or(_seen_T_1, rising) @[EdgeDetectors.scala 19:30]
    node _seen_T_3 = or(_seen_T_2, falling) @[EdgeDetectors.scala 19:39]
    seen <= _seen_T_3 @[EdgeDetectors.scala 19:8]
    io.rising <= rising @[EdgeDetectors.scala 21:13]
    io.falling <= falling @[EdgeDetectors.scala 22:14]
    io.seen <= seen @[EdgeDetectors.scala 23:11]
    node _io_any_T = xor(io.in, before) @[EdgeDetectors.scala 24:20]
    node _io_any_T_1 = orr(_io_any_T) @[EdgeDetectors.scala 24:30]
    io.any <= _io_any_T_1 @[EdgeDetectors.scala 24:10]
