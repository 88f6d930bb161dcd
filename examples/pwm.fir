FIRRTL version 1.1.0
circuit Pwm :
  module Pwm :
    input clock : Clock
    input reset : Reset
    output io : {flip duty : UInt<3>, out : UInt<1>, begins : UInt<1>}

    reg count : UInt<3>, clock with : (reset => (reset, UInt<3>(0))) @[Pwm.scala 11:22]
    reg duty : UInt<3>, clock with : (reset => (reset, UInt<3>(0))) @[Pwm.scala 12:21]
    node _count_T = add(count, UInt<1>(1)) @[Pwm.scala 13:18]
    node _count_T_1 = tail(_count_T, 1) @[Pwm.scala 13:18]
    count <= _count_T_1 @[Pwm.scala 13:9]
    node _T = andr(count) @[Pwm.scala 14:14]
    when _T : @[Pwm.scala 14:20]
      duty <= io.duty @[Pwm.scala 15:10]
    node _io_out_T = lt(count, duty) @[Pwm.scala 17:19]
    io.out <= _io_out_T @[Pwm.scala 17:10]
    node _io_begins_T = eq(count, UInt<1>(0)) @[Pwm.scala 18:22]
    io.begins <= _io_begins_T @[Pwm.scala 18:13]
