FIRRTL version 1.1.0
circuit SaturatingAdder :
  module SaturatingAdder :
    input clock : Clock
    input reset : UInt<1>
    output io : {flip a : UInt<8>, flip b : UInt<8>, flip x : SInt<8>, flip y : SInt<8>, unsigned : UInt<8>, signed : SInt<8>, saturates : UInt<1>}

    node sum = add(io.a, io.b) @[SaturatingAdder.scala 17:18]
    node _unsigned_T = head(sum, 1) @[SaturatingAdder.scala 18:27]
    node _unsigned_T_1 = tail(sum, 1) @[SaturatingAdder.scala 18:52]
    node unsigned = mux(_unsigned_T, UInt<8>("hff"), _unsigned_T_1) @[SaturatingAdder.scala 18:21]
    node total = add(io.x, io.y) @[SaturatingAdder.scala 20:20]
    node isOver = gt(total, SInt<8>("h7f")) @[SaturatingAdder.scala 21:22]
    node isUnder = lt(total, SInt<8>("h-80")) @[SaturatingAdder.scala 22:23]
    io.signed <= asSInt(tail(total, 1)) @[SaturatingAdder.scala 23:13]
    when isOver : @[SaturatingAdder.scala 24:16]
      io.signed <= SInt<8>("h7f") @[SaturatingAdder.scala 25:15]
    else when isUnder : @[SaturatingAdder.scala 26:23]
      io.signed <= SInt<8>("h-80") @[SaturatingAdder.scala 27:15]
    io.unsigned <= unsigned @[SaturatingAdder.scala 30:15]
    node _io_saturates_T = or(isOver, isUnder) @[SaturatingAdder.scala 31:41]
    node _io_saturates_T_1 = or(_unsigned_T, _io_saturates_T) @[SaturatingAdder.scala 31:31]
    io.saturates <= _io_saturates_T_1 @[SaturatingAdder.scala 31:16]
