FIRRTL version 1.1.0
circuit StreamAdapter :
  module StreamAdapter :
    input clock : Clock
    input reset : UInt<1>
    output io : {flip in : {flip ready : UInt<1>, valid : UInt<1>, last : UInt<1>, strobe : UInt<4>, data : UInt<8>[4]}, out : {flip ready : UInt<1>, valid : UInt<1>, last : UInt<1>, keep : UInt<2>, data : UInt<8>[2]}}

    io.out is invalid @[StreamAdapter.scala 19:10]
    io.out <- io.in @[StreamAdapter.scala 20:10]
    node _io_out_keep_T = bits(io.in.strobe, 1, 0) @[StreamAdapter.scala 22:34]
    when io.in.valid : @[StreamAdapter.scala 21:21]
      io.out.keep <= _io_out_keep_T @[StreamAdapter.scala 22:17]
    else :
      skip
