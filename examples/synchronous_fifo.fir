FIRRTL version 1.1.0
circuit SynchronousFifo :
  module SynchronousFifo :
    input clock : Clock
    input reset : UInt<1>
    output io : {flip enq : {flip ready : UInt<1>, valid : UInt<1>, bits : UInt<8>}, deq : {flip ready : UInt<1>, valid : UInt<1>, bits : UInt<8>}, count : UInt<3>}

    mem ram : @[Decoupled.scala 271:44]
      data-type => UInt<8>
      depth => 5
      read-latency => 1
      write-latency => 1
      reader => io_deq_bits_MPORT
      writer => MPORT
      read-under-write => new
    reg enq_ptr_value : UInt<3>, clock with :
      reset => (reset, UInt<3>("h0")) @[Counter.scala 61:40]
    reg deq_ptr_value : UInt<3>, clock with :
      reset => (reset, UInt<3>("h0")) @[Counter.scala 61:40]
    reg maybe_full : UInt<1>, clock with :
      reset => (reset, UInt<1>("h0")) @[Decoupled.scala 276:27]
    node ptr_match = eq(enq_ptr_value, deq_ptr_value) @[Decoupled.scala 277:33]
    node _empty_T = eq(maybe_full, UInt<1>("h0")) @[Decoupled.scala 278:28]
    node empty = and(ptr_match, _empty_T) @[Decoupled.scala 278:25]
    node full = and(ptr_match, maybe_full) @[Decoupled.scala 279:24]
    node _io_deq_valid_T = eq(empty, UInt<1>("h0")) @[Decoupled.scala 303:19]
    io.deq.valid <= _io_deq_valid_T @[Decoupled.scala 303:16]
    node _io_enq_ready_T = eq(full, UInt<1>("h0")) @[Decoupled.scala 304:19]
    io.enq.ready <= _io_enq_ready_T @[Decoupled.scala 304:16]
    node do_enq = and(io.enq.ready, io.enq.valid) @[Decoupled.scala 52:35]
    node do_deq = and(io.deq.ready, io.deq.valid) @[Decoupled.scala 52:35]
    ram.MPORT.addr <= enq_ptr_value @[Decoupled.scala 288:8]
    ram.MPORT.en <= do_enq @[Decoupled.scala 287:16]
    ram.MPORT.clk <= clock @[Decoupled.scala 288:8]
    ram.MPORT.data <= io.enq.bits @[Decoupled.scala 288:24]
    ram.MPORT.mask <= UInt<1>("h1") @[Decoupled.scala 288:24]
    when do_enq : @[Decoupled.scala 287:16]
      node wrap = eq(enq_ptr_value, UInt<3>("h4")) @[Counter.scala 73:24]
      node _value_T = add(enq_ptr_value, UInt<1>("h1")) @[Counter.scala 77:24]
      node _value_T_1 = tail(_value_T, 1) @[Counter.scala 77:24]
      enq_ptr_value <= _value_T_1 @[Counter.scala 77:15]
      when wrap : @[Counter.scala 87:20]
        enq_ptr_value <= UInt<1>("h0") @[Counter.scala 87:28]
    when do_deq : @[Decoupled.scala 291:16]
      node wrap_1 = eq(deq_ptr_value, UInt<3>("h4")) @[Counter.scala 73:24]
      node _value_T_2 = add(deq_ptr_value, UInt<1>("h1")) @[Counter.scala 77:24]
      node _value_T_3 = tail(_value_T_2, 1) @[Counter.scala 77:24]
      deq_ptr_value <= _value_T_3 @[Counter.scala 77:15]
      when wrap_1 : @[Counter.scala 87:20]
        deq_ptr_value <= UInt<1>("h0") @[Counter.scala 87:28]
    node _T = neq(do_enq, do_deq) @[Decoupled.scala 294:15]
    when _T : @[Decoupled.scala 294:27]
      maybe_full <= do_enq @[Decoupled.scala 295:16]
    node _deq_ptr_next_T = eq(deq_ptr_value, UInt<3>("h4")) @[Decoupled.scala 308:42]
    node _deq_ptr_next_T_1 = add(deq_ptr_value, UInt<1>("h1")) @[Decoupled.scala 308:89]
    node _deq_ptr_next_T_2 = tail(_deq_ptr_next_T_1, 1) @[Decoupled.scala 308:89]
    node deq_ptr_next = mux(_deq_ptr_next_T, UInt<1>("h0"), _deq_ptr_next_T_2) @[Decoupled.scala 308:27]
    node r_addr = mux(do_deq, deq_ptr_next, deq_ptr_value) @[Decoupled.scala 309:33]
    ram.io_deq_bits_MPORT.addr <= r_addr @[Decoupled.scala 310:23]
    ram.io_deq_bits_MPORT.en <= UInt<1>("h1") @[Decoupled.scala 310:23]
    ram.io_deq_bits_MPORT.clk <= clock @[Decoupled.scala 310:23]
    io.deq.bits <= ram.io_deq_bits_MPORT.data @[Decoupled.scala 310:17]
    node _ptr_diff_T = sub(enq_ptr_value, deq_ptr_value) @[Decoupled.scala 327:32]
    node ptr_diff = tail(_ptr_diff_T, 1) @[Decoupled.scala 327:32]
    node _io_count_T = mux(maybe_full, UInt<3>("h5"), UInt<1>("h0")) @[Decoupled.scala 334:10]
    node _io_count_T_1 = gt(deq_ptr_value, enq_ptr_value) @[Decoupled.scala 335:25]
    node _io_count_T_2 = add(UInt<3>("h5"), ptr_diff) @[Decoupled.scala 335:57]
    node _io_count_T_3 = tail(_io_count_T_2, 1) @[Decoupled.scala 335:57]
    node _io_count_T_4 = mux(_io_count_T_1, _io_count_T_3, ptr_diff) @[Decoupled.scala 335:10]
    node _io_count_T_5 = mux(ptr_match, _io_count_T, _io_count_T_4) @[Decoupled.scala 332:20]
    io.count <= _io_count_T_5 @[Decoupled.scala 332:14]
