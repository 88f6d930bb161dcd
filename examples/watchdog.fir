FIRRTL version 1.1.0
circuit Watchdog :
  module Watchdog :
    input clock : Clock
    input reset : Reset
    output io : {flip kick : UInt<1>, flip work : UInt<4>, bark : UInt<1>, systemReset : Reset, total : UInt<8>}

    reg count : UInt<3>, clock with :
      reset => (reset, UInt<3>("h0")) @[Watchdog.scala 14:22]
    node bark = geq(count, UInt<3>("h6")) @[Watchdog.scala 15:20]
    node bite = andr(count) @[Watchdog.scala 16:20]
    when io.kick : @[Watchdog.scala 17:17]
      count <= UInt<1>("h0") @[Watchdog.scala 18:11]
    else :
      node _count_T = add(count, UInt<1>("h1")) @[Watchdog.scala 20:20]
      node _count_T_1 = tail(_count_T, 1) @[Watchdog.scala 20:20]
      count <= _count_T_1 @[Watchdog.scala 20:11]
    node _systemReset_T = asUInt(reset) @[Watchdog.scala 23:28]
    node systemReset = or(_systemReset_T, bite) @[Watchdog.scala 23:35]
    io.bark <= bark @[Watchdog.scala 24:11]
    io.systemReset <= systemReset @[Watchdog.scala 25:18]
    reg total : UInt<8>, clock with :
      reset => (systemReset, UInt<8>("h0")) @[Watchdog.scala 27:24]
    node _total_T = add(total, io.work) @[Watchdog.scala 28:20]
    node _total_T_1 = tail(_total_T, 1) @[Watchdog.scala 28:20]
    total <= _total_T_1 @[Watchdog.scala 28:11]
    io.total <= total @[Watchdog.scala 29:14]
