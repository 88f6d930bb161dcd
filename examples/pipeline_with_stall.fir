FIRRTL version 2.0.0
circuit PipelineWithStall :
  module DecodeStage :
    input clock : Clock
    input reset : UInt<1>
    output io : {flip in : {flip ready : UInt<1>, valid : UInt<1>, bits : {op : UInt<2>, rd : UInt<2>, rs : UInt<2>, imm : UInt<8>}}, flip stall : UInt<1>, flip write : {valid : UInt<1>, rd : UInt<2>, value : UInt<8>}, reads : UInt<1>, rs : UInt<2>, out : {valid : UInt<1>, op : UInt<2>, rd : UInt<2>, a : UInt<8>, b : UInt<8>}}

    reg valid : UInt<1>, clock with :
      reset => (reset, UInt<1>("h0")) @[DecodeStage.scala 22:22]
    reg word : {op : UInt<2>, rd : UInt<2>, rs : UInt<2>, imm : UInt<8>}, clock @[DecodeStage.scala 23:17]
    reg regs : UInt<8>[4], clock @[DecodeStage.scala 24:17]
    node _T = eq(io.stall, UInt<1>("h0")) @[DecodeStage.scala 26:8]
    when _T : @[DecodeStage.scala 26:19]
      valid <= io.in.valid @[DecodeStage.scala 27:11]
      word <= io.in.bits @[DecodeStage.scala 28:10]
    when io.write.valid : @[DecodeStage.scala 30:24]
      regs[io.write.rd] <= io.write.value @[DecodeStage.scala 31:23]
    node _io_in_ready_T = eq(io.stall, UInt<1>("h0")) @[DecodeStage.scala 34:18]
    io.in.ready <= _io_in_ready_T @[DecodeStage.scala 34:15]
    node isLoad = eq(word.op, UInt<1>("h0")) @[DecodeStage.scala 35:24]
    node _io_reads_T = eq(isLoad, UInt<1>("h0")) @[DecodeStage.scala 36:24]
    node _io_reads_T_1 = and(valid, _io_reads_T) @[DecodeStage.scala 36:21]
    io.reads <= _io_reads_T_1 @[DecodeStage.scala 36:12]
    io.rs <= word.rs @[DecodeStage.scala 37:9]
    node _io_out_valid_T = eq(io.stall, UInt<1>("h0")) @[DecodeStage.scala 38:28]
    node _io_out_valid_T_1 = and(valid, _io_out_valid_T) @[DecodeStage.scala 38:25]
    io.out.valid <= _io_out_valid_T_1 @[DecodeStage.scala 38:16]
    io.out.op <= word.op @[DecodeStage.scala 39:13]
    io.out.rd <= word.rd @[DecodeStage.scala 40:13]
    node _io_out_a_T = mux(isLoad, UInt<1>("h0"), regs[word.rd]) @[DecodeStage.scala 41:18]
    io.out.a <= _io_out_a_T @[DecodeStage.scala 41:12]
    node _io_out_b_T = mux(isLoad, word.imm, regs[word.rs]) @[DecodeStage.scala 42:18]
    io.out.b <= _io_out_b_T @[DecodeStage.scala 42:12]

  module ExecuteStage :
    input clock : Clock
    input reset : UInt<1>
    output io : {flip in : {valid : UInt<1>, op : UInt<2>, rd : UInt<2>, a : UInt<8>, b : UInt<8>}, flip stall : UInt<1>, out : {valid : UInt<1>, rd : UInt<2>, value : UInt<8>}}

    wire _held_WIRE : {valid : UInt<1>, op : UInt<2>, rd : UInt<2>, a : UInt<8>, b : UInt<8>} @[ExecuteStage.scala 16:31]
    _held_WIRE.b <= UInt<8>("h0") @[ExecuteStage.scala 16:31]
    _held_WIRE.a <= UInt<8>("h0") @[ExecuteStage.scala 16:31]
    _held_WIRE.rd <= UInt<2>("h0") @[ExecuteStage.scala 16:31]
    _held_WIRE.op <= UInt<2>("h0") @[ExecuteStage.scala 16:31]
    _held_WIRE.valid <= UInt<1>("h0") @[ExecuteStage.scala 16:31]
    reg held : {valid : UInt<1>, op : UInt<2>, rd : UInt<2>, a : UInt<8>, b : UInt<8>}, clock with :
      reset => (reset, _held_WIRE) @[ExecuteStage.scala 16:21]
    node _T = eq(io.stall, UInt<1>("h0")) @[ExecuteStage.scala 18:8]
    when _T : @[ExecuteStage.scala 18:19]
      held <= io.in @[ExecuteStage.scala 19:10]
    io.out.valid <= held.valid @[ExecuteStage.scala 22:16]
    io.out.rd <= held.rd @[ExecuteStage.scala 23:13]
    node _io_out_value_T = add(held.a, held.b) @[ExecuteStage.scala 24:26]
    node _io_out_value_T_1 = tail(_io_out_value_T, 1) @[ExecuteStage.scala 24:26]
    io.out.value <= _io_out_value_T_1 @[ExecuteStage.scala 24:16]
    node _T_1 = eq(UInt<2>("h2"), held.op) @[ExecuteStage.scala 25:20]
    when _T_1 : @[ExecuteStage.scala 25:20]
      node _io_out_value_T_2 = sub(held.a, held.b) @[ExecuteStage.scala 26:37]
      node _io_out_value_T_3 = tail(_io_out_value_T_2, 1) @[ExecuteStage.scala 26:37]
      io.out.value <= _io_out_value_T_3 @[ExecuteStage.scala 26:27]
    else :
      node _T_2 = eq(UInt<2>("h3"), held.op) @[ExecuteStage.scala 25:20]
      when _T_2 : @[ExecuteStage.scala 25:20]
        node _io_out_value_T_4 = xor(held.a, held.b) @[ExecuteStage.scala 27:37]
        io.out.value <= _io_out_value_T_4 @[ExecuteStage.scala 27:27]

  module WriteBackStage :
    input clock : Clock
    input reset : UInt<1>
    output io : {flip in : {valid : UInt<1>, rd : UInt<2>, value : UInt<8>}, flip stall : UInt<1>, out : {valid : UInt<1>, rd : UInt<2>, value : UInt<8>}, pending : UInt<1>}

    reg valid : UInt<1>, clock with :
      reset => (reset, UInt<1>("h0")) @[WriteBackStage.scala 15:22]
    reg rd : UInt<2>, clock @[WriteBackStage.scala 16:15]
    reg value : UInt<8>, clock @[WriteBackStage.scala 17:18]
    node _T = eq(io.stall, UInt<1>("h0")) @[WriteBackStage.scala 19:8]
    when _T : @[WriteBackStage.scala 19:19]
      valid <= io.in.valid @[WriteBackStage.scala 20:11]
      rd <= io.in.rd @[WriteBackStage.scala 21:8]
      value <= io.in.value @[WriteBackStage.scala 22:11]
    io.pending <= valid @[WriteBackStage.scala 25:14]
    node _io_out_valid_T = eq(io.stall, UInt<1>("h0")) @[WriteBackStage.scala 26:28]
    node _io_out_valid_T_1 = and(valid, _io_out_valid_T) @[WriteBackStage.scala 26:25]
    io.out.valid <= _io_out_valid_T_1 @[WriteBackStage.scala 26:16]
    io.out.rd <= rd @[WriteBackStage.scala 27:13]
    io.out.value <= value @[WriteBackStage.scala 28:16]

  module PipelineWithStall :
    input clock : Clock
    input reset : UInt<1>
    output io : {flip in : {flip ready : UInt<1>, valid : UInt<1>, bits : {op : UInt<2>, rd : UInt<2>, rs : UInt<2>, imm : UInt<8>}}, flip wait : UInt<1>, out : {valid : UInt<1>, rd : UInt<2>, value : UInt<8>}}

    inst decode of DecodeStage @[PipelineWithStall.scala 17:22]
    decode.clock <= clock
    decode.reset <= reset
    inst execute of ExecuteStage @[PipelineWithStall.scala 18:23]
    execute.clock <= clock
    execute.reset <= reset
    inst writeBack of WriteBackStage @[PipelineWithStall.scala 19:25]
    writeBack.clock <= clock
    writeBack.reset <= reset
    decode.io.in <= io.in @[PipelineWithStall.scala 21:16]
    execute.io.in <= decode.io.out @[PipelineWithStall.scala 22:17]
    writeBack.io.in <= execute.io.out @[PipelineWithStall.scala 23:19]
    decode.io.write <= writeBack.io.out @[PipelineWithStall.scala 24:19]
    io.out <= writeBack.io.out @[PipelineWithStall.scala 25:10]
    node _inExecute_T = eq(execute.io.out.rd, decode.io.rs) @[PipelineWithStall.scala 28:36]
    node _inExecute_T_1 = eq(execute.io.out.rd, decode.io.out.rd) @[PipelineWithStall.scala 28:72]
    node _inExecute_T_2 = or(_inExecute_T, _inExecute_T_1) @[PipelineWithStall.scala 28:53]
    node inExecute = and(execute.io.out.valid, _inExecute_T_2) @[PipelineWithStall.scala 27:40]
    node _inWriteBack_T = eq(writeBack.io.out.rd, decode.io.rs) @[PipelineWithStall.scala 30:38]
    node _inWriteBack_T_1 = eq(writeBack.io.out.rd, decode.io.out.rd) @[PipelineWithStall.scala 30:76]
    node _inWriteBack_T_2 = or(_inWriteBack_T, _inWriteBack_T_1) @[PipelineWithStall.scala 30:55]
    node inWriteBack = and(writeBack.io.pending, _inWriteBack_T_2) @[PipelineWithStall.scala 29:42]
    node _hazard_T = or(inExecute, inWriteBack) @[PipelineWithStall.scala 31:46]
    node hazard = and(decode.io.reads, _hazard_T) @[PipelineWithStall.scala 31:32]
    node _decode_io_stall_T = or(io.wait, hazard) @[PipelineWithStall.scala 32:30]
    decode.io.stall <= _decode_io_stall_T @[PipelineWithStall.scala 32:19]
    execute.io.stall <= io.wait @[PipelineWithStall.scala 33:20]
    writeBack.io.stall <= io.wait @[PipelineWithStall.scala 34:22]
