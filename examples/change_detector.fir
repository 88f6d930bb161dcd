FIRRTL version 1.1.0
circuit ChangeDetector :
  module ChangeDetector :
    input clock : Clock
    input reset : UInt<1>
    output io : {flip armed : UInt<1>, flip in : UInt<8>, changed : UInt<1>, distance : UInt<8>}

    io.changed <= UInt<1>("h0") @[ChangeDetector.scala 12:14]
    io.distance is invalid @[ChangeDetector.scala 13:15]
    when io.armed : @[ChangeDetector.scala 14:18]
      reg io_changed_REG : UInt<8>, clock @[ChangeDetector.scala 15:24]
      io_changed_REG <= io.in @[ChangeDetector.scala 15:24]
      node _io_changed_T = neq(io.in, io_changed_REG) @[ChangeDetector.scala 16:25]
      io.changed <= _io_changed_T @[ChangeDetector.scala 16:16]
      wire distance : UInt<8> @[ChangeDetector.scala 17:24]
      node _T = geq(io.in, io_changed_REG) @[ChangeDetector.scala 18:17]
      when _T : @[ChangeDetector.scala 18:28]
        node _distance_T = sub(io.in, io_changed_REG) @[ChangeDetector.scala 18:48]
        node _distance_T_1 = tail(_distance_T, 1) @[ChangeDetector.scala 18:48]
        distance <= _distance_T_1 @[ChangeDetector.scala 18:39]
      else :
        node _distance_T_2 = sub(io_changed_REG, io.in) @[ChangeDetector.scala 19:38]
        node _distance_T_3 = tail(_distance_T_2, 1) @[ChangeDetector.scala 19:38]
        distance <= _distance_T_3 @[ChangeDetector.scala 19:30]
      io.distance <= distance @[ChangeDetector.scala 20:17]
