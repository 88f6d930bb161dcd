FIRRTL version 1.1.0
circuit LineBuffer :
  module LineBuffer :
    input clock : Clock
    input reset : UInt<1>
    output io : {flip in : {valid : UInt<1>, bits : UInt<8>}, out : {valid : UInt<1>, bits : {pixel : UInt<8>, above : UInt<8>, step : SInt<9>}}}

    mem row : @[LineBuffer.scala 18:24]
      data-type => UInt<8>
      depth => 6
      read-latency => 1
      write-latency => 1
      reader => above
      writer => below
      read-under-write => old
    reg column : UInt<3>, clock with :
      reset => (reset, UInt<3>("h0")) @[LineBuffer.scala 19:23]
    reg is_below : UInt<1>, clock with :
      reset => (reset, UInt<1>("h0")) @[LineBuffer.scala 20:25]
    reg valid : UInt<1>, clock with :
      reset => (reset, UInt<1>("h0")) @[LineBuffer.scala 21:22]
    reg pixel : UInt<8>, clock @[LineBuffer.scala 22:18]
    node _last_T = eq(column, UInt<3>("h5")) @[LineBuffer.scala 24:21]
    when io.in.valid : @[LineBuffer.scala 25:21]
      node _column_T = add(column, UInt<1>("h1")) @[LineBuffer.scala 26:22]
      node _column_T_1 = tail(_column_T, 1) @[LineBuffer.scala 26:22]
      column <= _column_T_1 @[LineBuffer.scala 26:12]
      when _last_T : @[LineBuffer.scala 27:17]
        column <= UInt<1>("h0") @[LineBuffer.scala 28:14]
        is_below <= UInt<1>("h1") @[LineBuffer.scala 29:16]
      pixel <= io.in.bits @[LineBuffer.scala 31:11]
    node _valid_T = and(io.in.valid, is_below) @[LineBuffer.scala 33:24]
    valid <= _valid_T @[LineBuffer.scala 33:9]
    row.above.addr <= column @[LineBuffer.scala 35:24]
    row.above.en <= io.in.valid @[LineBuffer.scala 35:24]
    row.above.clk <= clock @[LineBuffer.scala 35:24]
    row.below.addr <= column @[LineBuffer.scala 36:14]
    row.below.en <= io.in.valid @[LineBuffer.scala 36:14]
    row.below.clk <= clock @[LineBuffer.scala 36:14]
    row.below.data <= io.in.bits @[LineBuffer.scala 36:14]
    row.below.mask <= UInt<1>("h1") @[LineBuffer.scala 36:14]
    io.out.valid <= valid @[LineBuffer.scala 38:16]
    io.out.bits.pixel <= pixel @[LineBuffer.scala 39:21]
    io.out.bits.above <= row.above.data @[LineBuffer.scala 40:21]
    node _io_out_bits_step_T = sub(pixel, row.above.data) @[LineBuffer.scala 41:29]
    node _io_out_bits_step_T_1 = asSInt(_io_out_bits_step_T) @[LineBuffer.scala 41:48]
    io.out.bits.step <= _io_out_bits_step_T_1 @[LineBuffer.scala 41:20]
