FIRRTL version 1.1.0
circuit IntegerRegisters :
  module IntegerRegisters :
    input clock : Clock
    input reset : UInt<1>
    output io : {flip rs1 : UInt<3>, flip rs2 : UInt<3>, flip write : {enable : UInt<1>, rd : UInt<3>, data : UInt<16>}, first : UInt<16>, second : UInt<16>}

    mem registers : @[IntegerRegisters.scala 15:22]
      data-type => UInt<16>
      depth => 8
      read-latency => 0
      write-latency => 1
      reader => first
      reader => second
      writer => write
      read-under-write => undefined
    node _T = neq(io.write.rd, UInt<1>("h0")) @[IntegerRegisters.scala 17:41]
    node _T_1 = and(io.write.enable, _T) @[IntegerRegisters.scala 17:25]
    registers.write.addr <= io.write.rd @[IntegerRegisters.scala 18:14]
    registers.write.en <= _T_1 @[IntegerRegisters.scala 17:50]
    registers.write.clk <= clock @[IntegerRegisters.scala 18:14]
    registers.write.data <= io.write.data @[IntegerRegisters.scala 18:28]
    registers.write.mask <= UInt<1>("h1") @[IntegerRegisters.scala 18:28]
    node _registers_first_en_T = neq(io.rs1, UInt<1>("h0")) @[IntegerRegisters.scala 21:29]
    registers.first.addr <= io.rs1 @[IntegerRegisters.scala 21:18]
    registers.first.en <= _registers_first_en_T @[IntegerRegisters.scala 21:18]
    registers.first.clk <= clock @[IntegerRegisters.scala 21:18]
    io.first <= registers.first.data @[IntegerRegisters.scala 21:12]
    node _registers_second_en_T = neq(io.rs2, UInt<1>("h0")) @[IntegerRegisters.scala 22:30]
    registers.second.addr <= io.rs2 @[IntegerRegisters.scala 22:19]
    registers.second.en <= _registers_second_en_T @[IntegerRegisters.scala 22:19]
    registers.second.clk <= clock @[IntegerRegisters.scala 22:19]
    io.second <= registers.second.data @[IntegerRegisters.scala 22:13]
