FIRRTL version 1.1.0
circuit ShiftRegister :
  module ShiftRegister :
    input clock : Clock
    input reset : UInt<1>
    output io : {flip shift : UInt<1>, flip in : UInt<8>, flip position : UInt<2>, taps : UInt<8>[4], picked : UInt<8>}

    wire _line_WIRE : UInt<8>[4] @[ShiftRegister.scala 13:29]
    _line_WIRE[0] <= UInt<8>("h0") @[ShiftRegister.scala 13:29]
    _line_WIRE[1] <= UInt<8>("h0") @[ShiftRegister.scala 13:29]
    _line_WIRE[2] <= UInt<8>("h0") @[ShiftRegister.scala 13:29]
    _line_WIRE[3] <= UInt<8>("h0") @[ShiftRegister.scala 13:29]
    reg line : UInt<8>[4], clock with : (reset => (reset, _line_WIRE)) @[ShiftRegister.scala 13:21]
    when io.shift : @[ShiftRegister.scala 14:18]
      line[0] <= io.in @[ShiftRegister.scala 15:13]
      line[1] <= line[0] @[ShiftRegister.scala 17:15]
      line[2] <= line[1] @[ShiftRegister.scala 17:15]
      line[3] <= line[2] @[ShiftRegister.scala 17:15]
    io.taps <= line @[ShiftRegister.scala 20:11]
    io.picked <= line[io.position] @[ShiftRegister.scala 21:13]
