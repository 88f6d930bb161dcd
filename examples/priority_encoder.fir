FIRRTL version 1.1.0
circuit PriorityEncoder :
  module PriorityEncoder :
    input clock : Clock
    input reset : UInt<1>
    output io : {flip in : UInt<8>, index : UInt<3>, oneHot : UInt<8>, valid : UInt<1>}

    node _io_index_T = bits(io.in, 0, 0) @[OneHot.scala 47:40]
    node _io_index_T_1 = bits(io.in, 1, 1) @[OneHot.scala 47:40]
    node _io_index_T_2 = bits(io.in, 2, 2) @[OneHot.scala 47:40]
    node _io_index_T_3 = bits(io.in, 3, 3) @[OneHot.scala 47:40]
    node _io_index_T_4 = bits(io.in, 4, 4) @[OneHot.scala 47:40]
    node _io_index_T_5 = bits(io.in, 5, 5) @[OneHot.scala 47:40]
    node _io_index_T_6 = bits(io.in, 6, 6) @[OneHot.scala 47:40]
    node _io_index_T_7 = mux(_io_index_T_6, UInt<3>("h6"), UInt<3>("h7")) @[Mux.scala 47:70]
    node _io_index_T_8 = mux(_io_index_T_5, UInt<3>("h5"), _io_index_T_7) @[Mux.scala 47:70]
    node _io_index_T_9 = mux(_io_index_T_4, UInt<3>("h4"), _io_index_T_8) @[Mux.scala 47:70]
    node _io_index_T_10 = mux(_io_index_T_3, UInt<2>("h3"), _io_index_T_9) @[Mux.scala 47:70]
    node _io_index_T_11 = mux(_io_index_T_2, UInt<2>("h2"), _io_index_T_10) @[Mux.scala 47:70]
    node _io_index_T_12 = mux(_io_index_T_1, UInt<1>("h1"), _io_index_T_11) @[Mux.scala 47:70]
    node _io_index_T_13 = mux(_io_index_T, UInt<1>("h0"), _io_index_T_12) @[Mux.scala 47:70]
    io.index <= _io_index_T_13 @[PriorityEncoder.scala 14:12]
    node _io_oneHot_T = sub(UInt<1>("h0"), io.in) @[PriorityEncoder.scala 15:24]
    node _io_oneHot_T_1 = tail(_io_oneHot_T, 1) @[PriorityEncoder.scala 15:24]
    node _io_oneHot_T_2 = and(io.in, _io_oneHot_T_1) @[PriorityEncoder.scala 15:21]
    io.oneHot <= _io_oneHot_T_2 @[PriorityEncoder.scala 15:13]
    node _io_valid_T = orr(io.in) @[PriorityEncoder.scala 16:21]
    io.valid <= _io_valid_T @[PriorityEncoder.scala 16:12]
