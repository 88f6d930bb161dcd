FIRRTL version 1.1.0
circuit PriorityArbiter :
  module PriorityArbiter :
    input clock : Clock
    input reset : UInt<1>
    output io : {flip in : {flip ready : UInt<1>, valid : UInt<1>, bits : UInt<8>}[3], out : {flip ready : UInt<1>, valid : UInt<1>, bits : UInt<8>}, chosen : UInt<2>}

    io.chosen <= UInt<2>("h2") @[Arbiter.scala 135:13]
    io.out.bits <= io.in[2].bits @[Arbiter.scala 136:15]
    when io.in[1].valid : @[Arbiter.scala 138:26]
      io.chosen <= UInt<1>("h1") @[Arbiter.scala 139:17]
      io.out.bits <= io.in[1].bits @[Arbiter.scala 140:19]
    when io.in[0].valid : @[Arbiter.scala 138:26]
      io.chosen <= UInt<1>("h0") @[Arbiter.scala 139:17]
      io.out.bits <= io.in[0].bits @[Arbiter.scala 140:19]
    node _grant_T = or(io.in[0].valid, io.in[1].valid) @[Arbiter.scala 45:68]
    node grant_1 = eq(io.in[0].valid, UInt<1>("h0")) @[Arbiter.scala 45:78]
    node grant_2 = eq(_grant_T, UInt<1>("h0")) @[Arbiter.scala 45:78]
    node _io_in_0_ready_T = and(UInt<1>("h1"), io.out.ready) @[Arbiter.scala 146:19]
    io.in[0].ready <= _io_in_0_ready_T @[Arbiter.scala 146:14]
    node _io_in_1_ready_T = and(grant_1, io.out.ready) @[Arbiter.scala 146:19]
    io.in[1].ready <= _io_in_1_ready_T @[Arbiter.scala 146:14]
    node _io_in_2_ready_T = and(grant_2, io.out.ready) @[Arbiter.scala 146:19]
    io.in[2].ready <= _io_in_2_ready_T @[Arbiter.scala 146:14]
    node _io_out_valid_T = eq(grant_2, UInt<1>("h0")) @[Arbiter.scala 147:19]
    node _io_out_valid_T_1 = or(_io_out_valid_T, io.in[2].valid) @[Arbiter.scala 147:31]
    io.out.valid <= _io_out_valid_T_1 @[Arbiter.scala 147:16]
