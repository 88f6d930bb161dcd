FIRRTL version 1.1.0
circuit LeadingZeros :
  module LeadingZeros :
    input clock : Clock
    input reset : UInt<1>
    output io : {flip in : UInt<16>, count : UInt<5>, normal : UInt<16>}

    node upper = head(io.in, 8) @[LeadingZeros.scala 13:22]
    node _none8_T = orr(upper) @[LeadingZeros.scala 14:22]
    node none8 = eq(_none8_T, UInt<1>("h0")) @[LeadingZeros.scala 14:15]
    node _half_T = tail(io.in, 8) @[LeadingZeros.scala 15:34]
    node half = mux(none8, _half_T, upper) @[LeadingZeros.scala 15:17]
    node _none4_T = head(half, 4) @[LeadingZeros.scala 16:23]
    node _none4_T_1 = orr(_none4_T) @[LeadingZeros.scala 16:27]
    node none4 = eq(_none4_T_1, UInt<1>("h0")) @[LeadingZeros.scala 16:15]
    node _quarter_T = tail(half, 4) @[LeadingZeros.scala 17:35]
    node _quarter_T_1 = head(half, 4) @[LeadingZeros.scala 17:47]
    node quarter = mux(none4, _quarter_T, _quarter_T_1) @[LeadingZeros.scala 17:20]
    node _none2_T = head(quarter, 2) @[LeadingZeros.scala 18:26]
    node _none2_T_1 = orr(_none2_T) @[LeadingZeros.scala 18:30]
    node none2 = eq(_none2_T_1, UInt<1>("h0")) @[LeadingZeros.scala 18:15]
    node _pair_T = tail(quarter, 2) @[LeadingZeros.scala 19:34]
    node _pair_T_1 = head(quarter, 2) @[LeadingZeros.scala 19:46]
    node pair = mux(none2, _pair_T, _pair_T_1) @[LeadingZeros.scala 19:17]
    node _none1_T = head(pair, 1) @[LeadingZeros.scala 20:23]
    node none1 = eq(_none1_T, UInt<1>("h0")) @[LeadingZeros.scala 20:15]
    node count_lo = cat(none2, none1) @[Cat.scala 31:58]
    node count_hi = cat(none8, none4) @[Cat.scala 31:58]
    node count = cat(count_hi, count_lo) @[Cat.scala 31:58]
    node _io_count_T = orr(io.in) @[LeadingZeros.scala 23:25]
    node _io_count_T_1 = mux(_io_count_T, count, UInt<5>("h10")) @[LeadingZeros.scala 23:18]
    io.count <= _io_count_T_1 @[LeadingZeros.scala 23:12]
    node _io_normal_T = dshl(io.in, count) @[LeadingZeros.scala 24:22]
    node _io_normal_T_1 = bits(_io_normal_T, 15, 0) @[LeadingZeros.scala 24:31]
    io.normal <= _io_normal_T_1 @[LeadingZeros.scala 24:13]
