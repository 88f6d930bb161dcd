FIRRTL version 1.1.0
circuit Debouncer :
  module Debouncer :
    input clock : Clock
    input reset : UInt<1>
    output io : {flip button : UInt<1>, level : UInt<1>, pressed : UInt<1>}

    wire _sync_WIRE : UInt<1>[2] @[Debouncer.scala 13:29]
    _sync_WIRE[0] <= UInt<1>("h0") @[Debouncer.scala 13:29]
    _sync_WIRE[1] <= UInt<1>("h0") @[Debouncer.scala 13:29]
    reg sync : UInt<1>[2], clock with :
      reset => (reset, _sync_WIRE) @[Debouncer.scala 13:21]
    reg count : UInt<2>, clock with :
      reset => (reset, UInt<2>("h0")) @[Debouncer.scala 14:22]
    reg level : UInt<1>, clock with :
      reset => (reset, UInt<1>("h0")) @[Debouncer.scala 15:22]
    sync[0] <= io.button @[Debouncer.scala 16:11]
    sync[1] <= sync[0] @[Debouncer.scala 17:11]
    io.pressed <= UInt<1>("h0") @[Debouncer.scala 18:14]
    node _T = neq(sync[1], level) @[Debouncer.scala 19:16]
    when _T : @[Debouncer.scala 19:27]
      node _count_T = add(count, UInt<1>("h1")) @[Debouncer.scala 20:20]
      node _count_T_1 = tail(_count_T, 1) @[Debouncer.scala 20:20]
      count <= _count_T_1 @[Debouncer.scala 20:11]
      node _T_1 = andr(count) @[Debouncer.scala 21:16]
      when _T_1 : @[Debouncer.scala 21:22]
        level <= sync[1] @[Debouncer.scala 22:13]
        io.pressed <= sync[1] @[Debouncer.scala 23:18]
    else :
      count <= UInt<1>("h0") @[Debouncer.scala 26:11]
    io.level <= level @[Debouncer.scala 28:12]
