FIRRTL version 2.0.0
circuit EventCounter :
  module Synchronizer :
    input clock : Clock
    input reset : Reset
    output io : {flip d : UInt<1>, q : UInt<1>}

    reg first : UInt<1>, clock with :
      reset => (reset, UInt<1>("h0")) @[EventCounter.scala 14:22]
    reg second : UInt<1>, clock with :
      reset => (reset, UInt<1>("h0")) @[EventCounter.scala 15:23]
    first <= io.d @[EventCounter.scala 16:9]
    second <= first @[EventCounter.scala 17:10]
    io.q <= second @[EventCounter.scala 18:8]

  module Counter :
    input clock : Clock
    input reset : Reset
    output io : {flip up : UInt<1>, events : UInt<8>, idle : UInt<1>}

    wire init : {events : UInt<8>, quiet : UInt<3>} @[EventCounter.scala 32:20]
    init.events <= UInt<1>("h0") @[EventCounter.scala 33:15]
    init.quiet <= UInt<3>("h7") @[EventCounter.scala 34:14]
    reg state : {events : UInt<8>, quiet : UInt<3>}, clock with :
      reset => (reset, init) @[EventCounter.scala 35:22]
    io.idle <= andr(state.quiet) @[EventCounter.scala 37:11]
    when io.up : @[EventCounter.scala 38:15]
      node _state_events_T = add(state.events, UInt<1>("h1")) @[EventCounter.scala 39:34]
      node _state_events_T_1 = tail(_state_events_T, 1) @[EventCounter.scala 39:34]
      state.events <= _state_events_T_1 @[EventCounter.scala 39:18]
      state.quiet <= UInt<1>("h0") @[EventCounter.scala 40:17]
    else :
      node _T = eq(io.idle, UInt<1>("h0")) @[EventCounter.scala 41:15]
      when _T : @[EventCounter.scala 41:25]
        node _state_quiet_T = add(state.quiet, UInt<1>("h1")) @[EventCounter.scala 42:32]
        node _state_quiet_T_1 = tail(_state_quiet_T, 1) @[EventCounter.scala 42:32]
        state.quiet <= _state_quiet_T_1 @[EventCounter.scala 42:17]
    io.events <= state.events @[EventCounter.scala 44:13]

  module EventCounter :
    input clock : Clock
    input reset : AsyncReset
    output io : {flip line : UInt<1>, events : UInt<8>, idle : UInt<1>}

    inst synchronizer of Synchronizer @[EventCounter.scala 54:28]
    synchronizer.clock <= clock
    synchronizer.reset <= reset
    inst counter of Counter @[EventCounter.scala 55:23]
    counter.clock <= clock
    counter.reset <= reset
    reg last : UInt<1>, clock with :
      reset => (reset, UInt<1>("h1")) @[EventCounter.scala 56:21]
    synchronizer.io.d <= io.line @[EventCounter.scala 58:21]
    last <= synchronizer.io.q @[EventCounter.scala 59:8]
    node _counter_io_up_T = eq(last, UInt<1>("h0")) @[EventCounter.scala 60:41]
    node _counter_io_up_T_1 = and(synchronizer.io.q, _counter_io_up_T) @[EventCounter.scala 60:38]
    counter.io.up <= _counter_io_up_T_1 @[EventCounter.scala 60:17]
    io.events <= counter.io.events @[EventCounter.scala 61:13]
    io.idle <= counter.io.idle @[EventCounter.scala 62:11]
