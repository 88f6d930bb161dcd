FIRRTL version 1.1.0
circuit TimerWithPrescaler :
  module TimerWithPrescaler :
    input clock : Clock
    input reset : UInt<1>
    output io : {flip run : UInt<1>, flip prescale : UInt<4>, flip limit : UInt<8>, count : UInt<8>, tick : UInt<1>, expired : UInt<1>}

    reg prescaler : UInt<4>, clock with :
      reset => (reset, UInt<4>("h0")) @[TimerWithPrescaler.scala 15:26]
    reg count : UInt<8>, clock with :
      reset => (reset, UInt<8>("h0")) @[TimerWithPrescaler.scala 16:22]
    node _tick_T = geq(prescaler, io.prescale) @[TimerWithPrescaler.scala 17:37]
    node tick = and(io.run, _tick_T) @[TimerWithPrescaler.scala 17:23]
    node _expired_T = eq(count, io.limit) @[TimerWithPrescaler.scala 18:32]
    node expired = and(tick, _expired_T) @[TimerWithPrescaler.scala 18:22]
    when io.run : @[TimerWithPrescaler.scala 19:16]
      node _prescaler_T = add(prescaler, UInt<1>("h1")) @[TimerWithPrescaler.scala 20:43]
      node _prescaler_T_1 = tail(_prescaler_T, 1) @[TimerWithPrescaler.scala 20:43]
      node _prescaler_T_2 = mux(tick, UInt<1>("h0"), _prescaler_T_1) @[TimerWithPrescaler.scala 20:21]
      prescaler <= _prescaler_T_2 @[TimerWithPrescaler.scala 20:15]
    when expired : @[TimerWithPrescaler.scala 22:17]
      count <= UInt<1>("h0") @[TimerWithPrescaler.scala 23:11]
    else when tick : @[TimerWithPrescaler.scala 24:20]
      node _count_T = add(count, UInt<1>("h1")) @[TimerWithPrescaler.scala 25:20]
      node _count_T_1 = tail(_count_T, 1) @[TimerWithPrescaler.scala 25:20]
      count <= _count_T_1 @[TimerWithPrescaler.scala 25:11]
    io.count <= count @[TimerWithPrescaler.scala 28:12]
    io.tick <= tick @[TimerWithPrescaler.scala 29:11]
    io.expired <= expired @[TimerWithPrescaler.scala 30:14]
