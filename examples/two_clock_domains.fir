FIRRTL version 2.0.0
circuit TwoClockDomains :
  module Synchronizer :
    input clock : Clock
    input reset : UInt<1>
    output io : {flip d : UInt<1>, q : UInt<1>}

    reg first : UInt<1>, clock with :
      reset => (reset, UInt<1>("h0")) @[TwoClockDomains.scala 14:22]
    reg second : UInt<1>, clock with :
      reset => (reset, UInt<1>("h0")) @[TwoClockDomains.scala 15:23]
    first <= io.d @[TwoClockDomains.scala 16:9]
    second <= first @[TwoClockDomains.scala 17:10]
    io.q <= second @[TwoClockDomains.scala 18:8]

  module Sender :
    input clock : Clock
    input reset : UInt<1>
    output io : {flip in : {flip ready : UInt<1>, valid : UInt<1>, bits : UInt<8>}, link : {flip acknowledge : UInt<1>, request : UInt<1>, data : UInt<8>}}

    inst sync of Synchronizer @[TwoClockDomains.scala 34:20]
    sync.clock <= clock
    sync.reset <= reset
    reg request : UInt<1>, clock with :
      reset => (reset, UInt<1>("h0")) @[TwoClockDomains.scala 35:24]
    reg data : UInt<8>, clock @[TwoClockDomains.scala 36:17]
    sync.io.d <= io.link.acknowledge @[TwoClockDomains.scala 38:13]
    node _io_in_ready_T = eq(request, sync.io.q) @[TwoClockDomains.scala 39:26]
    io.in.ready <= _io_in_ready_T @[TwoClockDomains.scala 39:15]
    node _T = and(io.in.ready, io.in.valid) @[Decoupled.scala 51:35]
    when _T : @[TwoClockDomains.scala 40:20]
      node _request_T = not(request) @[TwoClockDomains.scala 41:16]
      request <= _request_T @[TwoClockDomains.scala 41:13]
      data <= io.in.bits @[TwoClockDomains.scala 42:10]
    io.link.request <= request @[TwoClockDomains.scala 44:19]
    io.link.data <= data @[TwoClockDomains.scala 45:16]

  module Receiver :
    input clock : Clock
    input reset : UInt<1>
    output io : {flip link : {flip acknowledge : UInt<1>, request : UInt<1>, data : UInt<8>}, out : {flip ready : UInt<1>, valid : UInt<1>, bits : UInt<8>}}

    inst sync of Synchronizer @[TwoClockDomains.scala 55:20]
    sync.clock <= clock
    sync.reset <= reset
    reg acknowledge : UInt<1>, clock with :
      reset => (reset, UInt<1>("h0")) @[TwoClockDomains.scala 56:28]
    sync.io.d <= io.link.request @[TwoClockDomains.scala 58:13]
    node _io_out_valid_T = neq(acknowledge, sync.io.q) @[TwoClockDomains.scala 59:31]
    io.out.valid <= _io_out_valid_T @[TwoClockDomains.scala 59:16]
    io.out.bits <= io.link.data @[TwoClockDomains.scala 60:15]
    node _T = and(io.out.ready, io.out.valid) @[Decoupled.scala 51:35]
    when _T : @[TwoClockDomains.scala 61:21]
      acknowledge <= sync.io.q @[TwoClockDomains.scala 62:17]
    io.link.acknowledge <= acknowledge @[TwoClockDomains.scala 64:23]

  module TwoClockDomains :
    input sendClock : Clock @[TwoClockDomains.scala 69:21]
    input sendReset : UInt<1> @[TwoClockDomains.scala 70:21]
    input receiveClock : Clock @[TwoClockDomains.scala 71:24]
    input receiveReset : UInt<1> @[TwoClockDomains.scala 72:24]
    input in : {flip ready : UInt<1>, valid : UInt<1>, bits : UInt<8>} @[TwoClockDomains.scala 73:14]
    output out : {flip ready : UInt<1>, valid : UInt<1>, bits : UInt<8>} @[TwoClockDomains.scala 74:15]

    inst sender of Sender @[TwoClockDomains.scala 76:60]
    sender.clock <= sendClock
    sender.reset <= sendReset
    inst receiver of Receiver @[TwoClockDomains.scala 77:68]
    receiver.clock <= receiveClock
    receiver.reset <= receiveReset
    sender.io.in <= in @[TwoClockDomains.scala 79:16]
    receiver.io.link <= sender.io.link @[TwoClockDomains.scala 80:20]
    out <= receiver.io.out @[TwoClockDomains.scala 81:7]
