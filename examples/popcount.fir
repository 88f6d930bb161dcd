FIRRTL version 1.1.0
circuit Popcount :
  module Popcount :
    input clock : Clock
    input reset : UInt<1>
    output io : {flip in : UInt<8>, count : UInt<4>, odd : UInt<1>, most : UInt<1>}

    wire pairs : UInt[4] @[Popcount.scala 13:20]
    wire nibbles : UInt[2] @[Popcount.scala 14:22]
    wire count : UInt @[Popcount.scala 15:20]
    node _pairs_0_T = bits(io.in, 0, 0) @[Popcount.scala 17:23]
    node _pairs_0_T_1 = bits(io.in, 1, 1) @[Popcount.scala 17:39]
    node _pairs_0_T_2 = add(_pairs_0_T, _pairs_0_T_1) @[Popcount.scala 17:31]
    pairs[0] <= _pairs_0_T_2 @[Popcount.scala 17:14]
    node _pairs_1_T = bits(io.in, 2, 2) @[Popcount.scala 17:23]
    node _pairs_1_T_1 = bits(io.in, 3, 3) @[Popcount.scala 17:39]
    node _pairs_1_T_2 = add(_pairs_1_T, _pairs_1_T_1) @[Popcount.scala 17:31]
    pairs[1] <= _pairs_1_T_2 @[Popcount.scala 17:14]
    node _pairs_2_T = bits(io.in, 4, 4) @[Popcount.scala 17:23]
    node _pairs_2_T_1 = bits(io.in, 5, 5) @[Popcount.scala 17:39]
    node _pairs_2_T_2 = add(_pairs_2_T, _pairs_2_T_1) @[Popcount.scala 17:31]
    pairs[2] <= _pairs_2_T_2 @[Popcount.scala 17:14]
    node _pairs_3_T = bits(io.in, 6, 6) @[Popcount.scala 17:23]
    node _pairs_3_T_1 = bits(io.in, 7, 7) @[Popcount.scala 17:39]
    node _pairs_3_T_2 = add(_pairs_3_T, _pairs_3_T_1) @[Popcount.scala 17:31]
    pairs[3] <= _pairs_3_T_2 @[Popcount.scala 17:14]
    node _nibbles_0_T = add(pairs[0], pairs[1]) @[Popcount.scala 20:28]
    nibbles[0] <= _nibbles_0_T @[Popcount.scala 20:14]
    node _nibbles_1_T = add(pairs[2], pairs[3]) @[Popcount.scala 21:28]
    nibbles[1] <= _nibbles_1_T @[Popcount.scala 21:14]
    node _count_T = add(nibbles[0], nibbles[1]) @[Popcount.scala 22:23]
    count <= _count_T @[Popcount.scala 22:9]
    io.count <= count @[Popcount.scala 24:12]
    node _io_odd_T = xorr(io.in) @[Popcount.scala 25:19]
    io.odd <= _io_odd_T @[Popcount.scala 25:10]
    node _io_most_T = gt(count, UInt<3>("h4")) @[Popcount.scala 26:20]
    io.most <= _io_most_T @[Popcount.scala 26:11]
