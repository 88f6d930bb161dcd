FIRRTL version 1.1.0
circuit SkidBuffer :
  module SkidBuffer :
    input clock : Clock
    input reset : UInt<1>
    output io : {flip in : {flip ready : UInt<1>, valid : UInt<1>, bits : UInt<8>}, out : {flip ready : UInt<1>, valid : UInt<1>, bits : UInt<8>}}

    reg full : UInt<1>, clock with :
      reset => (reset, UInt<1>("h0")) @[SkidBuffer.scala 14:21]
    reg saved : UInt<8>, clock with :
      reset => (UInt<1>("h0"), saved) @[SkidBuffer.scala 15:18]
    node _io_in_ready_T = eq(full, UInt<1>("h0")) @[SkidBuffer.scala 17:18]
    io.in.ready <= _io_in_ready_T @[SkidBuffer.scala 17:15]
    node _io_out_valid_T = or(full, io.in.valid) @[SkidBuffer.scala 18:24]
    io.out.valid <= _io_out_valid_T @[SkidBuffer.scala 18:16]
    io.out.bits <= io.in.bits @[SkidBuffer.scala 19:15]
    node _T = eq(io.out.ready, UInt<1>("h0")) @[SkidBuffer.scala 22:27]
    node _T_1 = and(io.in.valid, _T) @[SkidBuffer.scala 22:24]
    when full : @[SkidBuffer.scala 20:14]
      io.out.bits <= saved @[SkidBuffer.scala 21:17]
      when io.out.ready : @[SkidBuffer.scala 21:38]
        full <= UInt<1>("h0") @[SkidBuffer.scala 21:45]
    else when _T_1 : @[SkidBuffer.scala 22:42]
      full <= UInt<1>("h1") @[SkidBuffer.scala 23:10]
      saved <= io.in.bits @[SkidBuffer.scala 24:11]
