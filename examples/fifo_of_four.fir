FIRRTL version 1.1.0
circuit FifoOfFour :
  module FifoOfFour :
    input clock : Clock
    input reset : UInt<1>
    output io : {flip write : UInt<1>, flip data : UInt<8>, flip read : UInt<1>, out : UInt<8>, empty : UInt<1>, full : UInt<1>, used : UInt<3>}

    wire _store_WIRE : UInt<8>[4] @[FifoOfFour.scala 16:30]
    _store_WIRE[0] <= UInt<8>("h0") @[FifoOfFour.scala 16:30]
    _store_WIRE[1] <= UInt<8>("h0") @[FifoOfFour.scala 16:30]
    _store_WIRE[2] <= UInt<8>("h0") @[FifoOfFour.scala 16:30]
    _store_WIRE[3] <= UInt<8>("h0") @[FifoOfFour.scala 16:30]
    reg store : UInt<8>[4], clock with :
      reset => (reset, _store_WIRE) @[FifoOfFour.scala 16:22]
    reg head : UInt<2>, clock with :
      reset => (reset, UInt<2>("h0")) @[FifoOfFour.scala 17:21]
    reg used : UInt<3>, clock with :
      reset => (reset, UInt<3>("h0")) @[FifoOfFour.scala 18:21]
    node _isEmpty_T = orr(used) @[FifoOfFour.scala 20:22]
    node isEmpty = eq(_isEmpty_T, UInt<1>("h0")) @[FifoOfFour.scala 20:17]
    node isFull = eq(used, UInt<3>("h4")) @[FifoOfFour.scala 21:21]
    node _writes_T = eq(isFull, UInt<1>("h0")) @[FifoOfFour.scala 22:28]
    node writes = and(io.write, _writes_T) @[FifoOfFour.scala 22:25]
    node _reads_T = eq(isEmpty, UInt<1>("h0")) @[FifoOfFour.scala 23:26]
    node reads = and(io.read, _reads_T) @[FifoOfFour.scala 23:23]
    node _tail_T = add(head, used) @[FifoOfFour.scala 24:19]
    node _tail_T_1 = tail(_tail_T, 1) @[FifoOfFour.scala 24:19]
    node tail = bits(_tail_T_1, 1, 0) @[FifoOfFour.scala 24:26]
    when writes : @[FifoOfFour.scala 26:16]
      store[tail] <= io.data @[FifoOfFour.scala 27:17]
    when reads : @[FifoOfFour.scala 29:15]
      node _head_T = add(head, UInt<1>("h1")) @[FifoOfFour.scala 30:18]
      node _head_T_1 = tail(_head_T, 1) @[FifoOfFour.scala 30:18]
      head <= _head_T_1 @[FifoOfFour.scala 30:10]
    node _T = eq(reads, UInt<1>("h0")) @[FifoOfFour.scala 32:19]
    node _T_1 = and(writes, _T) @[FifoOfFour.scala 32:16]
    node _T_2 = eq(writes, UInt<1>("h0")) @[FifoOfFour.scala 34:25]
    node _T_3 = and(reads, _T_2) @[FifoOfFour.scala 34:22]
    when _T_1 : @[FifoOfFour.scala 32:27]
      node _used_T = add(used, UInt<1>("h1")) @[FifoOfFour.scala 33:18]
      node _used_T_1 = tail(_used_T, 1) @[FifoOfFour.scala 33:18]
      used <= _used_T_1 @[FifoOfFour.scala 33:10]
    else when _T_3 : @[FifoOfFour.scala 34:34]
      node _used_T_2 = sub(used, UInt<1>("h1")) @[FifoOfFour.scala 35:18]
      node _used_T_3 = tail(_used_T_2, 1) @[FifoOfFour.scala 35:18]
      used <= _used_T_3 @[FifoOfFour.scala 35:10]
    io.out <= store[head] @[FifoOfFour.scala 38:10]
    io.empty <= isEmpty @[FifoOfFour.scala 39:12]
    io.full <= isFull @[FifoOfFour.scala 40:11]
    io.used <= used @[FifoOfFour.scala 41:11]
