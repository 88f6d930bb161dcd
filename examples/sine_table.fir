FIRRTL version 1.1.0
circuit SineTable :
  module SineTable :
    input clock : Clock
    input reset : UInt<1>
    output io : {flip step : UInt<4>, sine : SInt<8>, cosine : SInt<8>}

    wire table : SInt<8>[16] @[SineTable.scala 14:22]
    table[0] <= asSInt(UInt<1>("h0")) @[SineTable.scala 14:22]
    table[1] <= asSInt(UInt<7>("h31")) @[SineTable.scala 14:22]
    table[2] <= asSInt(UInt<8>("h5a")) @[SineTable.scala 14:22]
    table[3] <= asSInt(UInt<8>("h75")) @[SineTable.scala 14:22]
    table[4] <= asSInt(UInt<8>("h7f")) @[SineTable.scala 14:22]
    table[5] <= asSInt(UInt<8>("h75")) @[SineTable.scala 14:22]
    table[6] <= asSInt(UInt<8>("h5a")) @[SineTable.scala 14:22]
    table[7] <= asSInt(UInt<7>("h31")) @[SineTable.scala 14:22]
    table[8] <= asSInt(UInt<1>("h0")) @[SineTable.scala 14:22]
    table[9] <= asSInt(UInt<7>("h4f")) @[SineTable.scala 14:22]
    table[10] <= asSInt(UInt<8>("ha6")) @[SineTable.scala 14:22]
    table[11] <= asSInt(UInt<8>("h8b")) @[SineTable.scala 14:22]
    table[12] <= asSInt(UInt<8>("h81")) @[SineTable.scala 14:22]
    table[13] <= asSInt(UInt<8>("h8b")) @[SineTable.scala 14:22]
    table[14] <= asSInt(UInt<8>("ha6")) @[SineTable.scala 14:22]
    table[15] <= asSInt(UInt<7>("h4f")) @[SineTable.scala 14:22]
    reg phase : UInt<6>, clock with :
      reset => (reset, UInt<6>("h0")) @[SineTable.scala 17:22]
    node _phase_T = add(phase, io.step) @[SineTable.scala 18:18]
    node _phase_T_1 = tail(_phase_T, 1) @[SineTable.scala 18:18]
    phase <= _phase_T_1 @[SineTable.scala 18:9]
    node _io_sine_T = shr(phase, 2) @[SineTable.scala 20:27]
    io.sine <= table[_io_sine_T] @[SineTable.scala 20:11]
    node _io_cosine_T = add(_io_sine_T, UInt<3>("h4")) @[SineTable.scala 21:36]
    node _io_cosine_T_1 = tail(_io_cosine_T, 1) @[SineTable.scala 21:36]
    io.cosine <= table[_io_cosine_T_1] @[SineTable.scala 21:13]
