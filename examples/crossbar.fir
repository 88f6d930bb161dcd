FIRRTL version 2.0.0
circuit Crossbar :
  module Crossbar :
    input clock : Clock
    input reset : UInt<1>
    output io : {flip in : {valid : UInt<1>, to : UInt<2>, bits : UInt<8>}[3], out : {valid : UInt<1>, bits : UInt<8>}[3], clash : UInt<1>}

    io.out[0].valid <= UInt<1>("h0") @[Crossbar.scala 16:15]
    io.out[0].bits is invalid @[Crossbar.scala 17:14]
    io.out[1].valid <= UInt<1>("h0") @[Crossbar.scala 16:15]
    io.out[1].bits is invalid @[Crossbar.scala 17:14]
    io.out[2].valid <= UInt<1>("h0") @[Crossbar.scala 16:15]
    io.out[2].bits is invalid @[Crossbar.scala 17:14]
    when io.in[2].valid : @[Crossbar.scala 20:20]
      io.out[io.in[2].to].valid <= UInt<1>("h1") @[Crossbar.scala 21:26]
      io.out[io.in[2].to].bits <= io.in[2].bits @[Crossbar.scala 22:25]
    when io.in[1].valid : @[Crossbar.scala 20:20]
      io.out[io.in[1].to].valid <= UInt<1>("h1") @[Crossbar.scala 21:26]
      io.out[io.in[1].to].bits <= io.in[1].bits @[Crossbar.scala 22:25]
    when io.in[0].valid : @[Crossbar.scala 20:20]
      io.out[io.in[0].to].valid <= UInt<1>("h1") @[Crossbar.scala 21:26]
      io.out[io.in[0].to].bits <= io.in[0].bits @[Crossbar.scala 22:25]
    node _clash_T = and(io.in[0].valid, io.in[1].valid) @[Crossbar.scala 26:25]
    node _clash_T_1 = eq(io.in[0].to, io.in[1].to) @[Crossbar.scala 26:54]
    node clash = and(_clash_T, _clash_T_1) @[Crossbar.scala 26:41]
    node _clash_T_2 = and(io.in[0].valid, io.in[2].valid) @[Crossbar.scala 26:25]
    node _clash_T_3 = eq(io.in[0].to, io.in[2].to) @[Crossbar.scala 26:54]
    node clash_1 = and(_clash_T_2, _clash_T_3) @[Crossbar.scala 26:41]
    node _clash_T_4 = and(io.in[1].valid, io.in[2].valid) @[Crossbar.scala 26:25]
    node _clash_T_5 = eq(io.in[1].to, io.in[2].to) @[Crossbar.scala 26:54]
    node clash_2 = and(_clash_T_4, _clash_T_5) @[Crossbar.scala 26:41]
    node _io_clash_T = or(clash, clash_1) @[Crossbar.scala 27:33]
    node _io_clash_T_1 = or(_io_clash_T, clash_2) @[Crossbar.scala 27:33]
    io.clash <= _io_clash_T_1 @[Crossbar.scala 27:12]
