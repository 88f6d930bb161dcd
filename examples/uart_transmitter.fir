FIRRTL version 1.1.0
circuit UartTransmitter :
  module UartTransmitter :
    input clock : Clock
    input reset : UInt<1>
    output io : {flip channel : {flip ready : UInt<1>, valid : UInt<1>, bits : UInt<8>}, txd : UInt<1>}

    reg shiftReg : UInt<11>, clock with :
      reset => (reset, UInt<11>("h7ff")) @[UartTransmitter.scala 18:25]
    reg cntReg : UInt<1>, clock with :
      reset => (reset, UInt<1>("h0")) @[UartTransmitter.scala 19:23]
    reg bitsReg : UInt<4>, clock with :
      reset => (reset, UInt<4>("h0")) @[UartTransmitter.scala 20:24]
    node _io_channel_ready_T = eq(cntReg, UInt<1>("h0")) @[UartTransmitter.scala 22:31]
    node _io_channel_ready_T_1 = eq(bitsReg, UInt<1>("h0")) @[UartTransmitter.scala 22:52]
    node _io_channel_ready_T_2 = and(_io_channel_ready_T, _io_channel_ready_T_1) @[UartTransmitter.scala 22:40]
    io.channel.ready <= _io_channel_ready_T_2 @[UartTransmitter.scala 22:20]
    node _io_txd_T = bits(shiftReg, 0, 0) @[UartTransmitter.scala 23:21]
    io.txd <= _io_txd_T @[UartTransmitter.scala 23:10]
    node _T = eq(cntReg, UInt<1>("h0")) @[UartTransmitter.scala 25:15]
    when _T : @[UartTransmitter.scala 25:24]
      cntReg <= UInt<1>("h1") @[UartTransmitter.scala 26:12]
      node _T_1 = neq(bitsReg, UInt<1>("h0")) @[UartTransmitter.scala 27:18]
      when _T_1 : @[UartTransmitter.scala 27:27]
        node shift = shr(shiftReg, 1) @[UartTransmitter.scala 28:28]
        node _shiftReg_T = bits(shift, 9, 0) @[UartTransmitter.scala 29:29]
        node _shiftReg_T_1 = cat(UInt<1>("h1"), _shiftReg_T) @[Cat.scala 31:58]
        shiftReg <= _shiftReg_T_1 @[UartTransmitter.scala 29:16]
        node _bitsReg_T = sub(bitsReg, UInt<1>("h1")) @[UartTransmitter.scala 30:26]
        node _bitsReg_T_1 = tail(_bitsReg_T, 1) @[UartTransmitter.scala 30:26]
        bitsReg <= _bitsReg_T_1 @[UartTransmitter.scala 30:15]
      else :
        when io.channel.valid : @[UartTransmitter.scala 32:30]
          node shiftReg_hi = cat(UInt<2>("h3"), io.channel.bits) @[Cat.scala 31:58]
          node _shiftReg_T_2 = cat(shiftReg_hi, UInt<1>("h0")) @[Cat.scala 31:58]
          shiftReg <= _shiftReg_T_2 @[UartTransmitter.scala 33:18]
          bitsReg <= UInt<4>("hb") @[UartTransmitter.scala 34:17]
        else :
          shiftReg <= UInt<11>("h7ff") @[UartTransmitter.scala 36:18]
    else :
      node _cntReg_T = sub(cntReg, UInt<1>("h1")) @[UartTransmitter.scala 40:22]
      node _cntReg_T_1 = tail(_cntReg_T, 1) @[UartTransmitter.scala 40:22]
      cntReg <= _cntReg_T_1 @[UartTransmitter.scala 40:12]
