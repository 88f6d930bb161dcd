FIRRTL version 1.1.0
circuit ArbiterTree :
  module ArbiterOfTwo :
    input clock : Clock
    input reset : UInt<1>
    output io : {flip in : {flip ready : UInt<1>, valid : UInt<1>, bits : {id : UInt<3>, data : UInt<4>}}[2], out : {flip ready : UInt<1>, valid : UInt<1>, bits : {id : UInt<3>, data : UInt<4>}}}

    reg last : UInt<1>, clock with :
      reset => (reset, UInt<1>("h1")) @[ArbiterTree.scala 21:21]
    node other = not(last) @[ArbiterTree.scala 22:15]
    node chosen = mux(io.in[other].valid, other, last) @[ArbiterTree.scala 23:19]
    node _io_out_valid_T = or(io.in[0].valid, io.in[1].valid) @[ArbiterTree.scala 25:35]
    io.out.valid <= _io_out_valid_T @[ArbiterTree.scala 25:16]
    io.out.bits <= io.in[chosen].bits @[ArbiterTree.scala 26:15]
    node _io_in_0_ready_T = eq(chosen, UInt<1>("h0")) @[ArbiterTree.scala 28:29]
    node _io_in_0_ready_T_1 = and(_io_in_0_ready_T, io.out.ready) @[ArbiterTree.scala 28:37]
    io.in[0].ready <= _io_in_0_ready_T_1 @[ArbiterTree.scala 28:19]
    node _io_in_1_ready_T = eq(chosen, UInt<1>("h1")) @[ArbiterTree.scala 28:29]
    node _io_in_1_ready_T_1 = and(_io_in_1_ready_T, io.out.ready) @[ArbiterTree.scala 28:37]
    io.in[1].ready <= _io_in_1_ready_T_1 @[ArbiterTree.scala 28:19]
    node _T = and(io.out.ready, io.out.valid) @[Decoupled.scala 50:35]
    when _T : @[ArbiterTree.scala 30:21]
      last <= chosen @[ArbiterTree.scala 31:10]

  module ArbiterOfFour :
    input clock : Clock
    input reset : UInt<1>
    output io : {flip in : {flip ready : UInt<1>, valid : UInt<1>, bits : {id : UInt<3>, data : UInt<4>}}[4], out : {flip ready : UInt<1>, valid : UInt<1>, bits : {id : UInt<3>, data : UInt<4>}}}

    inst low of ArbiterOfTwo @[ArbiterTree.scala 41:19]
    low.clock <= clock
    low.reset <= reset
    inst high of ArbiterOfTwo @[ArbiterTree.scala 42:20]
    high.clock <= clock
    high.reset <= reset
    inst root of ArbiterOfTwo @[ArbiterTree.scala 43:20]
    root.clock <= clock
    root.reset <= reset
    low.io.in[0] <= io.in[0] @[ArbiterTree.scala 45:16]
    low.io.in[1] <= io.in[1] @[ArbiterTree.scala 46:16]
    high.io.in[0] <= io.in[2] @[ArbiterTree.scala 47:17]
    high.io.in[1] <= io.in[3] @[ArbiterTree.scala 48:17]
    root.io.in[0] <= low.io.out @[ArbiterTree.scala 49:17]
    root.io.in[1] <= high.io.out @[ArbiterTree.scala 50:17]
    io.out <= root.io.out @[ArbiterTree.scala 51:10]

  module ArbiterTree :
    input clock : Clock
    input reset : UInt<1>
    output io : {flip in : {flip ready : UInt<1>, valid : UInt<1>, bits : UInt<4>}[8], out : {flip ready : UInt<1>, valid : UInt<1>, bits : {id : UInt<3>, data : UInt<4>}}}

    inst low of ArbiterOfFour @[ArbiterTree.scala 60:19]
    low.clock <= clock
    low.reset <= reset
    inst high of ArbiterOfFour @[ArbiterTree.scala 61:20]
    high.clock <= clock
    high.reset <= reset
    inst root of ArbiterOfTwo @[ArbiterTree.scala 62:20]
    root.clock <= clock
    root.reset <= reset
    low.io.in[0].valid <= io.in[0].valid @[ArbiterTree.scala 66:16]
    low.io.in[0].bits.id <= UInt<1>("h0") @[ArbiterTree.scala 67:18]
    low.io.in[0].bits.data <= io.in[0].bits @[ArbiterTree.scala 68:20]
    io.in[0].ready <= low.io.in[0].ready @[ArbiterTree.scala 69:19]
    low.io.in[1].valid <= io.in[1].valid @[ArbiterTree.scala 66:16]
    low.io.in[1].bits.id <= UInt<1>("h1") @[ArbiterTree.scala 67:18]
    low.io.in[1].bits.data <= io.in[1].bits @[ArbiterTree.scala 68:20]
    io.in[1].ready <= low.io.in[1].ready @[ArbiterTree.scala 69:19]
    low.io.in[2].valid <= io.in[2].valid @[ArbiterTree.scala 66:16]
    low.io.in[2].bits.id <= UInt<2>("h2") @[ArbiterTree.scala 67:18]
    low.io.in[2].bits.data <= io.in[2].bits @[ArbiterTree.scala 68:20]
    io.in[2].ready <= low.io.in[2].ready @[ArbiterTree.scala 69:19]
    low.io.in[3].valid <= io.in[3].valid @[ArbiterTree.scala 66:16]
    low.io.in[3].bits.id <= UInt<2>("h3") @[ArbiterTree.scala 67:18]
    low.io.in[3].bits.data <= io.in[3].bits @[ArbiterTree.scala 68:20]
    io.in[3].ready <= low.io.in[3].ready @[ArbiterTree.scala 69:19]
    high.io.in[0].valid <= io.in[4].valid @[ArbiterTree.scala 66:16]
    high.io.in[0].bits.id <= UInt<3>("h4") @[ArbiterTree.scala 67:18]
    high.io.in[0].bits.data <= io.in[4].bits @[ArbiterTree.scala 68:20]
    io.in[4].ready <= high.io.in[0].ready @[ArbiterTree.scala 69:19]
    high.io.in[1].valid <= io.in[5].valid @[ArbiterTree.scala 66:16]
    high.io.in[1].bits.id <= UInt<3>("h5") @[ArbiterTree.scala 67:18]
    high.io.in[1].bits.data <= io.in[5].bits @[ArbiterTree.scala 68:20]
    io.in[5].ready <= high.io.in[1].ready @[ArbiterTree.scala 69:19]
    high.io.in[2].valid <= io.in[6].valid @[ArbiterTree.scala 66:16]
    high.io.in[2].bits.id <= UInt<3>("h6") @[ArbiterTree.scala 67:18]
    high.io.in[2].bits.data <= io.in[6].bits @[ArbiterTree.scala 68:20]
    io.in[6].ready <= high.io.in[2].ready @[ArbiterTree.scala 69:19]
    high.io.in[3].valid <= io.in[7].valid @[ArbiterTree.scala 66:16]
    high.io.in[3].bits.id <= UInt<3>("h7") @[ArbiterTree.scala 67:18]
    high.io.in[3].bits.data <= io.in[7].bits @[ArbiterTree.scala 68:20]
    io.in[7].ready <= high.io.in[3].ready @[ArbiterTree.scala 69:19]
    root.io.in[0] <= low.io.out @[ArbiterTree.scala 72:17]
    root.io.in[1] <= high.io.out @[ArbiterTree.scala 73:17]
    io.out <= root.io.out @[ArbiterTree.scala 74:10]
