FIRRTL version 2.0.0
circuit ClockThroughInstances :
  module Tile :
    input clock : Clock
    input reset : UInt<1>
    output io : {flip in : UInt<4>, out : UInt<4>, clockOut : Clock}

    reg sum : UInt<4>, clock with :
      reset => (reset, UInt<4>("h0")) @[ClockThroughInstances.scala 17:20]
    node _sum_T = add(sum, io.in) @[ClockThroughInstances.scala 18:14]
    node _sum_T_1 = tail(_sum_T, 1) @[ClockThroughInstances.scala 18:14]
    sum <= _sum_T_1 @[ClockThroughInstances.scala 18:7]
    io.out <= sum @[ClockThroughInstances.scala 19:10]
    io.clockOut <= clock @[ClockThroughInstances.scala 20:15]

  module Row :
    input clock : Clock
    input reset : UInt<1>
    output io : {flip in : UInt<4>, out : UInt<4>, clockOut : Clock}

    inst near of Tile @[ClockThroughInstances.scala 27:20]
    near.clock <= clock
    near.reset <= reset
    inst far of Tile @[ClockThroughInstances.scala 28:55]
    far.clock <= near.io.clockOut
    far.reset <= reset
    near.io.in <= io.in @[ClockThroughInstances.scala 29:14]
    far.io.in <= near.io.out @[ClockThroughInstances.scala 30:13]
    io.out <= far.io.out @[ClockThroughInstances.scala 31:10]
    io.clockOut <= far.io.clockOut @[ClockThroughInstances.scala 32:15]

  module ClockThroughInstances :
    input clock : Clock
    input reset : UInt<1>
    output io : {flip slow : Clock, flip in : UInt<4>[2], out : UInt<4>[2], edges : UInt<4>[2], clockOut : Clock[2]}

    wire clocks : Clock[2] @[ClockThroughInstances.scala 45:20]
    clocks[0] <= clock @[ClockThroughInstances.scala 46:13]
    clocks[1] <= io.slow @[ClockThroughInstances.scala 47:13]
    inst rows_0 of Row @[ClockThroughInstances.scala 49:55]
    rows_0.clock <= clocks[0]
    rows_0.reset <= reset
    rows_0.io.in <= io.in[0] @[ClockThroughInstances.scala 50:15]
    io.out[0] <= rows_0.io.out @[ClockThroughInstances.scala 51:15]
    reg edges : UInt<4>, rows_0.io.clockOut with :
      reset => (reset, UInt<4>("h0")) @[ClockThroughInstances.scala 53:24]
    node _edges_T = add(edges, UInt<1>("h1")) @[ClockThroughInstances.scala 54:22]
    node _edges_T_1 = tail(_edges_T, 1) @[ClockThroughInstances.scala 54:22]
    edges <= _edges_T_1 @[ClockThroughInstances.scala 54:13]
    io.edges[0] <= edges @[ClockThroughInstances.scala 55:19]
    io.clockOut[0] <= rows_0.io.clockOut @[ClockThroughInstances.scala 57:20]
    inst rows_1 of Row @[ClockThroughInstances.scala 49:55]
    rows_1.clock <= clocks[1]
    rows_1.reset <= reset
    rows_1.io.in <= io.in[1] @[ClockThroughInstances.scala 50:15]
    io.out[1] <= rows_1.io.out @[ClockThroughInstances.scala 51:15]
    reg edges_1 : UInt<4>, rows_1.io.clockOut with :
      reset => (reset, UInt<4>("h0")) @[ClockThroughInstances.scala 53:24]
    node _edges_T_2 = add(edges_1, UInt<1>("h1")) @[ClockThroughInstances.scala 54:22]
    node _edges_T_3 = tail(_edges_T_2, 1) @[ClockThroughInstances.scala 54:22]
    edges_1 <= _edges_T_3 @[ClockThroughInstances.scala 54:13]
    io.edges[1] <= edges_1 @[ClockThroughInstances.scala 55:19]
    io.clockOut[1] <= rows_1.io.clockOut @[ClockThroughInstances.scala 57:20]
