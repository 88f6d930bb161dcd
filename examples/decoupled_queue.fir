FIRRTL version 2.0.0
circuit DecoupledQueue :
  module DecoupledQueue :
    input clock : Clock
    input reset : UInt<1>
    output io : {flip enq : {flip ready : UInt<1>, valid : UInt<1>, bits : UInt<8>}, deq : {flip ready : UInt<1>, valid : UInt<1>, bits : UInt<8>}, count : UInt<2>}

    reg ram : UInt<8>[2], clock @[Decoupled.scala 259:16]
    reg enq_ptr_value : UInt<1>, clock with :
      reset => (reset, UInt<1>("h0")) @[Counter.scala 61:40]
    reg deq_ptr_value : UInt<1>, clock with :
      reset => (reset, UInt<1>("h0")) @[Counter.scala 61:40]
    reg maybe_full : UInt<1>, clock with :
      reset => (reset, UInt<1>("h0")) @[Decoupled.scala 262:27]
    node ptr_match = eq(enq_ptr_value, deq_ptr_value) @[Decoupled.scala 263:33]
    node _empty_T = eq(maybe_full, UInt<1>("h0")) @[Decoupled.scala 264:28]
    node empty = and(ptr_match, _empty_T) @[Decoupled.scala 264:25]
    node full = and(ptr_match, maybe_full) @[Decoupled.scala 265:24]
    node _do_enq_T = and(io.enq.ready, io.enq.valid) @[Decoupled.scala 50:35]
    wire do_enq : UInt<1>
    do_enq <= _do_enq_T
    node _do_deq_T = and(io.deq.ready, io.deq.valid) @[Decoupled.scala 50:35]
    wire do_deq : UInt<1>
    do_deq <= _do_deq_T
    when do_enq : @[Decoupled.scala 269:16]
      ram[enq_ptr_value] <= io.enq.bits @[Decoupled.scala 270:24]
      node _value_T = add(enq_ptr_value, UInt<1>("h1")) @[Counter.scala 76:24]
      node _value_T_1 = tail(_value_T, 1) @[Counter.scala 76:24]
      enq_ptr_value <= _value_T_1 @[Counter.scala 76:15]
    when do_deq : @[Decoupled.scala 273:16]
      node _value_T_2 = add(deq_ptr_value, UInt<1>("h1")) @[Counter.scala 76:24]
      node _value_T_3 = tail(_value_T_2, 1) @[Counter.scala 76:24]
      deq_ptr_value <= _value_T_3 @[Counter.scala 76:15]
    node _T = neq(do_enq, do_deq) @[Decoupled.scala 276:15]
    when _T : @[Decoupled.scala 276:27]
      maybe_full <= do_enq @[Decoupled.scala 277:16]
    node _io_deq_valid_T = eq(empty, UInt<1>("h0")) @[Decoupled.scala 285:19]
    io.deq.valid <= _io_deq_valid_T @[Decoupled.scala 285:16]
    node _io_enq_ready_T = eq(full, UInt<1>("h0")) @[Decoupled.scala 286:19]
    io.enq.ready <= _io_enq_ready_T @[Decoupled.scala 286:16]
    io.deq.bits <= ram[deq_ptr_value] @[Decoupled.scala 293:17]
    node _ptr_diff_T = sub(enq_ptr_value, deq_ptr_value) @[Decoupled.scala 309:32]
    node ptr_diff = tail(_ptr_diff_T, 1) @[Decoupled.scala 309:32]
    node _io_count_T = and(maybe_full, ptr_match) @[Decoupled.scala 312:32]
    node _io_count_T_1 = mux(_io_count_T, UInt<2>("h2"), UInt<1>("h0")) @[Decoupled.scala 312:20]
    node _io_count_T_2 = or(_io_count_T_1, ptr_diff) @[Decoupled.scala 312:62]
    io.count <= _io_count_T_2 @[Decoupled.scala 312:14]
