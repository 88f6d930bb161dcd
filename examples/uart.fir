FIRRTL version 1.1.0
circuit Uart :
  module Buffer :
    input clock : Clock
    input reset : UInt<1>
    output io : {flip in : {flip ready : UInt<1>, valid : UInt<1>, bits : UInt<8>}, out : {flip ready : UInt<1>, valid : UInt<1>, bits : UInt<8>}}

    reg stateReg : UInt<1>, clock with :
      reset => (reset, UInt<1>("h0")) @[Uart.scala 97:25]
    reg dataReg : UInt<8>, clock with :
      reset => (reset, UInt<8>("h0")) @[Uart.scala 98:24]
    node _io_in_ready_T = eq(stateReg, UInt<1>("h0")) @[Uart.scala 100:27]
    io.in.ready <= _io_in_ready_T @[Uart.scala 100:15]
    node _io_out_valid_T = eq(stateReg, UInt<1>("h1")) @[Uart.scala 101:28]
    io.out.valid <= _io_out_valid_T @[Uart.scala 101:16]
    node _T = eq(stateReg, UInt<1>("h0")) @[Uart.scala 103:17]
    when _T : @[Uart.scala 103:28]
      when io.in.valid : @[Uart.scala 104:25]
        dataReg <= io.in.bits @[Uart.scala 105:15]
        stateReg <= UInt<1>("h1") @[Uart.scala 106:16]
    else :
      when io.out.ready : @[Uart.scala 109:26]
        stateReg <= UInt<1>("h0") @[Uart.scala 110:16]
    io.out.bits <= dataReg @[Uart.scala 113:15]

  module Transmitter :
    input clock : Clock
    input reset : UInt<1>
    output io : {flip channel : {flip ready : UInt<1>, valid : UInt<1>, bits : UInt<8>}, txd : UInt<1>}

    reg shiftReg : UInt<10>, clock with :
      reset => (reset, UInt<10>("h3ff")) @[Uart.scala 29:25]
    reg cntReg : UInt<2>, clock with :
      reset => (reset, UInt<2>("h0")) @[Uart.scala 30:23]
    reg bitsReg : UInt<4>, clock with :
      reset => (reset, UInt<4>("h0")) @[Uart.scala 31:24]
    node _io_channel_ready_T = eq(cntReg, UInt<1>("h0")) @[Uart.scala 33:31]
    node _io_channel_ready_T_1 = eq(bitsReg, UInt<1>("h0")) @[Uart.scala 33:52]
    node _io_channel_ready_T_2 = and(_io_channel_ready_T, _io_channel_ready_T_1) @[Uart.scala 33:40]
    io.channel.ready <= _io_channel_ready_T_2 @[Uart.scala 33:20]
    node _io_txd_T = bits(shiftReg, 0, 0) @[Uart.scala 34:21]
    io.txd <= _io_txd_T @[Uart.scala 34:10]
    node _T = eq(cntReg, UInt<1>("h0")) @[Uart.scala 36:15]
    when _T : @[Uart.scala 36:24]
      cntReg <= UInt<2>("h3") @[Uart.scala 37:12]
      node _T_1 = neq(bitsReg, UInt<1>("h0")) @[Uart.scala 38:18]
      when _T_1 : @[Uart.scala 38:27]
        node shift = shr(shiftReg, 1) @[Uart.scala 39:28]
        node _shiftReg_T = cat(UInt<1>("h1"), shift) @[Cat.scala 31:58]
        shiftReg <= _shiftReg_T @[Uart.scala 40:16]
        node _bitsReg_T = sub(bitsReg, UInt<1>("h1")) @[Uart.scala 41:26]
        node _bitsReg_T_1 = tail(_bitsReg_T, 1) @[Uart.scala 41:26]
        bitsReg <= _bitsReg_T_1 @[Uart.scala 41:15]
      else :
        when io.channel.valid : @[Uart.scala 43:30]
          node shiftReg_hi = cat(UInt<1>("h1"), io.channel.bits) @[Cat.scala 31:58]
          node _shiftReg_T_1 = cat(shiftReg_hi, UInt<1>("h0")) @[Cat.scala 31:58]
          shiftReg <= _shiftReg_T_1 @[Uart.scala 44:18]
          bitsReg <= UInt<4>("h9") @[Uart.scala 45:17]
        else :
          cntReg <= UInt<1>("h0") @[Uart.scala 47:16]
          shiftReg <= UInt<10>("h3ff") @[Uart.scala 48:18]
    else :
      node _cntReg_T = sub(cntReg, UInt<1>("h1")) @[Uart.scala 52:22]
      node _cntReg_T_1 = tail(_cntReg_T, 1) @[Uart.scala 52:22]
      cntReg <= _cntReg_T_1 @[Uart.scala 52:12]

  module BufferedTransmitter :
    input clock : Clock
    input reset : UInt<1>
    output io : {flip channel : {flip ready : UInt<1>, valid : UInt<1>, bits : UInt<8>}, txd : UInt<1>}

    inst tx of Transmitter @[Uart.scala 121:18]
    tx.clock <= clock
    tx.reset <= reset
    inst buf of Buffer @[Uart.scala 122:19]
    buf.clock <= clock
    buf.reset <= reset
    buf.io.in <= io.channel @[Uart.scala 124:13]
    tx.io.channel <= buf.io.out @[Uart.scala 125:17]
    io.txd <= tx.io.txd @[Uart.scala 126:10]

  module Receiver :
    input clock : Clock
    input reset : UInt<1>
    output io : {flip rxd : UInt<1>, channel : {flip ready : UInt<1>, valid : UInt<1>, bits : UInt<8>}, broken : UInt<1>}

    reg rxReg_REG : UInt<1>, clock with :
      reset => (reset, UInt<1>("h1")) @[Uart.scala 63:30]
    rxReg_REG <= io.rxd @[Uart.scala 63:30]
    reg rxReg : UInt<1>, clock with :
      reset => (reset, UInt<1>("h1")) @[Uart.scala 63:22]
    rxReg <= rxReg_REG @[Uart.scala 63:22]
    reg shiftReg : UInt<8>, clock with :
      reset => (reset, UInt<8>("h0")) @[Uart.scala 64:25]
    reg cntReg : UInt<3>, clock with :
      reset => (reset, UInt<3>("h0")) @[Uart.scala 65:23]
    reg bitsReg : UInt<4>, clock with :
      reset => (reset, UInt<4>("h0")) @[Uart.scala 66:24]
    reg valReg : UInt<1>, clock with :
      reset => (reset, UInt<1>("h0")) @[Uart.scala 67:23]
    reg brokenReg : UInt<1>, clock with :
      reset => (reset, UInt<1>("h0")) @[Uart.scala 68:26]
    node _T = neq(cntReg, UInt<1>("h0")) @[Uart.scala 70:15]
    when _T : @[Uart.scala 70:24]
      node _cntReg_T = sub(cntReg, UInt<1>("h1")) @[Uart.scala 71:22]
      node _cntReg_T_1 = tail(_cntReg_T, 1) @[Uart.scala 71:22]
      cntReg <= _cntReg_T_1 @[Uart.scala 71:12]
    else :
      node _T_1 = gt(bitsReg, UInt<1>("h1")) @[Uart.scala 72:22]
      when _T_1 : @[Uart.scala 72:29]
        cntReg <= UInt<2>("h3") @[Uart.scala 73:12]
        node _shiftReg_T = shr(shiftReg, 1) @[Uart.scala 74:37]
        node _shiftReg_T_1 = cat(rxReg, _shiftReg_T) @[Cat.scala 31:58]
        shiftReg <= _shiftReg_T_1 @[Uart.scala 74:14]
        node _bitsReg_T = sub(bitsReg, UInt<1>("h1")) @[Uart.scala 75:24]
        node _bitsReg_T_1 = tail(_bitsReg_T, 1) @[Uart.scala 75:24]
        bitsReg <= _bitsReg_T_1 @[Uart.scala 75:13]
      else :
        node _T_2 = eq(bitsReg, UInt<1>("h1")) @[Uart.scala 76:22]
        when _T_2 : @[Uart.scala 76:31]
          bitsReg <= UInt<1>("h0") @[Uart.scala 77:13]
          valReg <= rxReg @[Uart.scala 78:12]
          node _brokenReg_T = eq(rxReg, UInt<1>("h0")) @[Uart.scala 79:18]
          brokenReg <= _brokenReg_T @[Uart.scala 79:15]
        else :
          node _T_3 = eq(rxReg, UInt<1>("h0")) @[Uart.scala 80:20]
          when _T_3 : @[Uart.scala 80:29]
            cntReg <= UInt<3>("h4") @[Uart.scala 81:12]
            bitsReg <= UInt<4>("h9") @[Uart.scala 82:13]
            brokenReg <= UInt<1>("h0") @[Uart.scala 83:15]
    node _T_4 = and(valReg, io.channel.ready) @[Uart.scala 86:15]
    when _T_4 : @[Uart.scala 86:36]
      valReg <= UInt<1>("h0") @[Uart.scala 87:12]
    io.channel.bits <= shiftReg @[Uart.scala 89:19]
    io.channel.valid <= valReg @[Uart.scala 90:20]
    io.broken <= brokenReg @[Uart.scala 91:13]

  module Uart :
    input clock : Clock
    input reset : UInt<1>
    output io : {flip loopback : UInt<1>, flip rxd : UInt<1>, txd : UInt<1>, flip send : {flip ready : UInt<1>, valid : UInt<1>, bits : UInt<8>}, received : {flip ready : UInt<1>, valid : UInt<1>, bits : UInt<8>}, broken : UInt<1>}

    inst tx of BufferedTransmitter @[Uart.scala 141:18]
    tx.clock <= clock
    tx.reset <= reset
    inst rx of Receiver @[Uart.scala 142:18]
    rx.clock <= clock
    rx.reset <= reset
    tx.io.channel <= io.send @[Uart.scala 144:17]
    io.txd <= tx.io.txd @[Uart.scala 145:10]
    node _rx_io_rxd_T = mux(io.loopback, tx.io.txd, io.rxd) @[Uart.scala 146:19]
    rx.io.rxd <= _rx_io_rxd_T @[Uart.scala 146:13]
    io.received <= rx.io.channel @[Uart.scala 147:15]
    io.broken <= rx.io.broken @[Uart.scala 148:13]
