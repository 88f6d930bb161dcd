FIRRTL version 1.1.0
circuit RegisterFile :
  module RegisterFile :
    input clock : Clock
    input reset : UInt<1>
    output io : {flip rs1 : UInt<3>, flip rs2 : UInt<3>, flip write : {enable : UInt<1>, rd : UInt<3>, data : UInt<16>}, first : UInt<16>, second : UInt<16>}

    reg registers : UInt<16>[8], clock @[RegisterFile.scala 15:22]
    node _T = neq(io.write.rd, UInt<1>("h0")) @[RegisterFile.scala 17:41]
    node _T_1 = and(io.write.enable, _T) @[RegisterFile.scala 17:25]
    when _T_1 : @[RegisterFile.scala 17:50]
      registers[io.write.rd] <= io.write.data @[RegisterFile.scala 18:28]
    node _io_first_T = eq(io.rs1, UInt<1>("h0")) @[RegisterFile.scala 21:29]
    node _io_first_T_1 = mux(_io_first_T, UInt<1>("h0"), registers[io.rs1]) @[RegisterFile.scala 21:18]
    io.first <= _io_first_T_1 @[RegisterFile.scala 21:12]
    node _io_second_T = eq(io.rs2, UInt<1>("h0")) @[RegisterFile.scala 22:30]
    node _io_second_T_1 = mux(_io_second_T, UInt<1>("h0"), registers[io.rs2]) @[RegisterFile.scala 22:19]
    io.second <= _io_second_T_1 @[RegisterFile.scala 22:13]
