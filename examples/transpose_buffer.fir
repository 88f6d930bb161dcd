FIRRTL version 1.1.0
circuit TransposeBuffer :
  module TransposeBuffer :
    input clock : Clock
    input reset : UInt<1>
    output io : {flip load : UInt<1>, flip row : UInt<2>, flip in : UInt<4>[3], flip patch : {valid : UInt<1>, row : UInt<2>, column : UInt<2>, bits : UInt<4>}, flip column : UInt<2>, out : UInt<4>[3], diagonal : UInt<4>}

    reg store : UInt<4>[3][3], clock @[TransposeBuffer.scala 17:18]
    when io.load : @[TransposeBuffer.scala 18:17]
      store[io.row] <= io.in @[TransposeBuffer.scala 19:19]
    else when io.patch.valid : @[TransposeBuffer.scala 20:30]
      store[io.patch.row][io.patch.column] <= io.patch.bits @[TransposeBuffer.scala 21:42]
    io.out[0] <= store[0][io.column] @[TransposeBuffer.scala 24:15]
    io.out[1] <= store[1][io.column] @[TransposeBuffer.scala 24:15]
    io.out[2] <= store[2][io.column] @[TransposeBuffer.scala 24:15]
    io.diagonal <= store[io.column][io.column] @[TransposeBuffer.scala 26:15]
