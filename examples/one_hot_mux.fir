FIRRTL version 1.1.0
circuit OneHotMux :
  module OneHotMux :
    input clock : Clock
    input reset : UInt<1>
    output io : {flip select : UInt<4>, flip in : {key : UInt<4>, value : SInt<6>}[4], out : {key : UInt<4>, value : SInt<6>}, fault : UInt<1>}

    node _T = bits(io.select, 0, 0) @[OneHotMux.scala 14:30]
    node _T_1 = bits(io.select, 1, 1) @[OneHotMux.scala 14:30]
    node _T_2 = bits(io.select, 2, 2) @[OneHotMux.scala 14:30]
    node _T_3 = bits(io.select, 3, 3) @[OneHotMux.scala 14:30]
    node _out_T = validif(_T, io.in[0]) @[Mux.scala 27:73]
    node _out_T_1 = validif(_T_1, io.in[1]) @[Mux.scala 27:73]
    node _out_T_2 = validif(_T_2, io.in[2]) @[Mux.scala 27:73]
    node _out_T_3 = validif(_T_3, io.in[3]) @[Mux.scala 27:73]
    node _io_out_key_T = or(_out_T.key, _out_T_1.key) @[Mux.scala 27:73]
    node _io_out_key_T_1 = or(_io_out_key_T, _out_T_2.key) @[Mux.scala 27:73]
    node _io_out_key_T_2 = or(_io_out_key_T_1, _out_T_3.key) @[Mux.scala 27:73]
    io.out.key <= _io_out_key_T_2 @[OneHotMux.scala 15:10]
    node _io_out_value_T = or(_out_T.value, _out_T_1.value) @[Mux.scala 27:73]
    node _io_out_value_T_1 = or(asSInt(_io_out_value_T), _out_T_2.value) @[Mux.scala 27:73]
    node _io_out_value_T_2 = or(asSInt(_io_out_value_T_1), _out_T_3.value) @[Mux.scala 27:73]
    io.out.value <= asSInt(_io_out_value_T_2) @[OneHotMux.scala 15:10]
    node _count_T = add(_T, _T_1) @[Bitwise.scala 48:55]
    node _count_T_1 = add(_T_2, _T_3) @[Bitwise.scala 48:55]
    node count = add(_count_T, _count_T_1) @[Bitwise.scala 48:55]
    node _io_fault_T = neq(count, UInt<1>("h1")) @[OneHotMux.scala 17:35]
    io.fault <= _io_fault_T @[OneHotMux.scala 17:12]
