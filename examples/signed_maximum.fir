FIRRTL version 1.1.0
circuit SignedMaximum :
  module SignedMaximum :
    input clock : Clock
    input reset : UInt<1>
    output io : {flip in : SInt<8>[4], maximum : SInt<8>, at : UInt<2>, spread : UInt<8>}

    node _high_T = geq(io.in[0], io.in[1]) @[SignedMaximum.scala 14:24]
    node high_0 = mux(_high_T, io.in[0], io.in[1]) @[SignedMaximum.scala 14:17]
    node low_0 = mux(_high_T, io.in[1], io.in[0]) @[SignedMaximum.scala 15:17]
    node _high_T_1 = geq(io.in[2], io.in[3]) @[SignedMaximum.scala 14:24]
    node high_1 = mux(_high_T_1, io.in[2], io.in[3]) @[SignedMaximum.scala 14:17]
    node low_1 = mux(_high_T_1, io.in[3], io.in[2]) @[SignedMaximum.scala 15:17]
    node isLower = geq(high_0, high_1) @[SignedMaximum.scala 18:24]
    node maximum = mux(isLower, high_0, high_1) @[SignedMaximum.scala 19:20]
    node _minimum_T = leq(low_0, low_1) @[SignedMaximum.scala 20:27]
    node minimum = mux(_minimum_T, low_0, low_1) @[SignedMaximum.scala 20:20]
    node _io_at_T = eq(_high_T, UInt<1>("h0")) @[SignedMaximum.scala 22:37]
    node _io_at_T_1 = eq(_high_T_1, UInt<1>("h0")) @[SignedMaximum.scala 22:55]
    node _io_at_T_2 = cat(UInt<1>("h1"), _io_at_T_1) @[Cat.scala 31:58]
    node _io_at_T_3 = mux(isLower, _io_at_T, _io_at_T_2) @[SignedMaximum.scala 22:15]
    io.at <= _io_at_T_3 @[SignedMaximum.scala 22:9]
    io.maximum <= maximum @[SignedMaximum.scala 23:14]
    node _io_spread_T = sub(maximum, minimum) @[SignedMaximum.scala 24:24]
    node _io_spread_T_1 = asUInt(_io_spread_T) @[SignedMaximum.scala 24:35]
    node _io_spread_T_2 = bits(_io_spread_T_1, 7, 0) @[SignedMaximum.scala 24:42]
    io.spread <= _io_spread_T_2 @[SignedMaximum.scala 24:13]
