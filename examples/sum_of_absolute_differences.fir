FIRRTL version 1.1.0
circuit SumOfAbsoluteDifferences :
  module SumOfAbsoluteDifferences :
    input clock : Clock
    input reset : UInt<1>
    output io : {flip left : UInt<8>[3], flip right : UInt<8>[3], sum : UInt<10>, isNear : UInt<1>}

    node _differences_T = cvt(io.left[0]) @[SumOfAbsoluteDifferences.scala 14:60]
    node _differences_T_1 = cvt(io.right[0]) @[SumOfAbsoluteDifferences.scala 14:69]
    node differences_0 = sub(_differences_T, _differences_T_1) @[SumOfAbsoluteDifferences.scala 14:65]
    node _differences_T_2 = cvt(io.left[1]) @[SumOfAbsoluteDifferences.scala 14:60]
    node _differences_T_3 = cvt(io.right[1]) @[SumOfAbsoluteDifferences.scala 14:69]
    node differences_1 = sub(_differences_T_2, _differences_T_3) @[SumOfAbsoluteDifferences.scala 14:65]
    node _differences_T_4 = cvt(io.left[2]) @[SumOfAbsoluteDifferences.scala 14:60]
    node _differences_T_5 = cvt(io.right[2]) @[SumOfAbsoluteDifferences.scala 14:69]
    node differences_2 = sub(_differences_T_4, _differences_T_5) @[SumOfAbsoluteDifferences.scala 14:65]
    node _sizes_T = lt(differences_0, asSInt(UInt<1>("h0"))) @[SumOfAbsoluteDifferences.scala 15:35]
    node _sizes_T_1 = neg(differences_0) @[SumOfAbsoluteDifferences.scala 15:35]
    node _sizes_T_2 = mux(_sizes_T, _sizes_T_1, differences_0) @[SumOfAbsoluteDifferences.scala 15:35]
    node sizes_0 = asUInt(_sizes_T_2) @[SumOfAbsoluteDifferences.scala 15:39]
    node _sizes_T_3 = lt(differences_1, asSInt(UInt<1>("h0"))) @[SumOfAbsoluteDifferences.scala 15:35]
    node _sizes_T_4 = neg(differences_1) @[SumOfAbsoluteDifferences.scala 15:35]
    node _sizes_T_5 = mux(_sizes_T_3, _sizes_T_4, differences_1) @[SumOfAbsoluteDifferences.scala 15:35]
    node sizes_1 = asUInt(_sizes_T_5) @[SumOfAbsoluteDifferences.scala 15:39]
    node _sizes_T_6 = lt(differences_2, asSInt(UInt<1>("h0"))) @[SumOfAbsoluteDifferences.scala 15:35]
    node _sizes_T_7 = neg(differences_2) @[SumOfAbsoluteDifferences.scala 15:35]
    node _sizes_T_8 = mux(_sizes_T_6, _sizes_T_7, differences_2) @[SumOfAbsoluteDifferences.scala 15:35]
    node sizes_2 = asUInt(_sizes_T_8) @[SumOfAbsoluteDifferences.scala 15:39]
    node _sum_T = add(sizes_0, sizes_1) @[SumOfAbsoluteDifferences.scala 16:26]
    node _sum_T_1 = add(_sum_T, sizes_2) @[SumOfAbsoluteDifferences.scala 16:26]
    node sum = bits(_sum_T_1, 9, 0) @[SumOfAbsoluteDifferences.scala 16:29]
    io.sum <= sum @[SumOfAbsoluteDifferences.scala 18:10]
    node _io_isNear_T = shl(sum, 2) @[SumOfAbsoluteDifferences.scala 19:21]
    node _io_isNear_T_1 = leq(_io_isNear_T, UInt<8>("h80")) @[SumOfAbsoluteDifferences.scala 19:26]
    io.isNear <= _io_isNear_T_1 @[SumOfAbsoluteDifferences.scala 19:13]
