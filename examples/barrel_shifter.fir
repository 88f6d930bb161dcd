FIRRTL version 1.1.0
circuit BarrelShifter :
  module BarrelShifter :
    input clock : Clock
    input reset : UInt<1>
    output io : {flip mode : UInt<2>, flip in : UInt<16>, flip amount : UInt<4>, out : UInt<16>}

    node _left_T = dshl(io.in, io.amount) @[BarrelShifter.scala 15:21]
    node left = bits(_left_T, 15, 0) @[BarrelShifter.scala 15:33]
    node right = dshr(io.in, io.amount) @[BarrelShifter.scala 16:22]
    node _signed_T = asSInt(io.in) @[BarrelShifter.scala 17:24]
    node _signed_T_1 = dshr(_signed_T, io.amount) @[BarrelShifter.scala 17:31]
    node signed = asUInt(_signed_T_1) @[BarrelShifter.scala 17:45]
    node _turned_T = cat(io.in, io.in) @[Cat.scala 31:58]
    node _turned_T_1 = dshl(_turned_T, io.amount) @[BarrelShifter.scala 18:32]
    node turned = bits(_turned_T_1, 31, 16) @[BarrelShifter.scala 18:44]
    node _io_out_T = eq(UInt<2>("h1"), io.mode) @[Mux.scala 81:61]
    node _io_out_T_1 = mux(_io_out_T, right, left) @[Mux.scala 81:58]
    node _io_out_T_2 = eq(UInt<2>("h2"), io.mode) @[Mux.scala 81:61]
    node _io_out_T_3 = mux(_io_out_T_2, signed, _io_out_T_1) @[Mux.scala 81:58]
    node _io_out_T_4 = eq(UInt<2>("h3"), io.mode) @[Mux.scala 81:61]
    node _io_out_T_5 = mux(_io_out_T_4, turned, _io_out_T_3) @[Mux.scala 81:58]
    io.out <= _io_out_T_5 @[BarrelShifter.scala 20:10]
