FIRRTL version 1.1.0
circuit RiscvCore :
  module Decoder :
    input clock : Clock
    input reset : UInt<1>
    output io : {flip inst : UInt<32>, isLui : UInt<1>, isImm : UInt<1>, isReg : UInt<1>, isBranch : UInt<1>, isLoad : UInt<1>, isStore : UInt<1>, isJal : UInt<1>, immediate : UInt<32>}

    node opcode = bits(io.inst, 6, 0) @[Decoder.scala 20:23]
    node _io_isLui_T = eq(opcode, UInt<7>("h37")) @[Decoder.scala 21:24]
    io.isLui <= _io_isLui_T @[Decoder.scala 21:12]
    node _io_isImm_T = eq(opcode, UInt<7>("h13")) @[Decoder.scala 22:24]
    io.isImm <= _io_isImm_T @[Decoder.scala 22:12]
    node _io_isReg_T = eq(opcode, UInt<7>("h33")) @[Decoder.scala 23:24]
    io.isReg <= _io_isReg_T @[Decoder.scala 23:12]
    node _io_isBranch_T = eq(opcode, UInt<7>("h63")) @[Decoder.scala 24:27]
    io.isBranch <= _io_isBranch_T @[Decoder.scala 24:15]
    node _io_isLoad_T = eq(opcode, UInt<7>("h3")) @[Decoder.scala 25:25]
    io.isLoad <= _io_isLoad_T @[Decoder.scala 25:13]
    node _io_isStore_T = eq(opcode, UInt<7>("h23")) @[Decoder.scala 26:26]
    io.isStore <= _io_isStore_T @[Decoder.scala 26:14]
    node _io_isJal_T = eq(opcode, UInt<7>("h6f")) @[Decoder.scala 27:24]
    io.isJal <= _io_isJal_T @[Decoder.scala 27:12]
    node sign = bits(io.inst, 31, 31) @[Decoder.scala 29:21]
    node _immI_T = bits(io.inst, 31, 20) @[Decoder.scala 30:21]
    node immI = asSInt(_immI_T) @[Decoder.scala 30:30]
    node _immS_T = bits(io.inst, 31, 25) @[Decoder.scala 31:25]
    node _immS_T_1 = bits(io.inst, 11, 7) @[Decoder.scala 31:42]
    node _immS_T_2 = cat(_immS_T, _immS_T_1) @[Cat.scala 33:92]
    node immS = asSInt(_immS_T_2) @[Decoder.scala 31:57]
    node _immB_T = bits(io.inst, 7, 7) @[Decoder.scala 32:31]
    node _immB_T_1 = bits(io.inst, 30, 25) @[Decoder.scala 32:43]
    node _immB_T_2 = bits(io.inst, 11, 8) @[Decoder.scala 32:60]
    node immB_lo = cat(_immB_T_2, UInt<1>("h0")) @[Cat.scala 33:92]
    node immB_hi_hi = cat(sign, _immB_T) @[Cat.scala 33:92]
    node immB_hi = cat(immB_hi_hi, _immB_T_1) @[Cat.scala 33:92]
    node _immB_T_3 = cat(immB_hi, immB_lo) @[Cat.scala 33:92]
    node immB = asSInt(_immB_T_3) @[Decoder.scala 32:80]
    node _immJ_T = bits(io.inst, 19, 12) @[Decoder.scala 33:31]
    node _immJ_T_1 = bits(io.inst, 20, 20) @[Decoder.scala 33:48]
    node _immJ_T_2 = bits(io.inst, 30, 21) @[Decoder.scala 33:61]
    node immJ_lo = cat(_immJ_T_2, UInt<1>("h0")) @[Cat.scala 33:92]
    node immJ_hi_hi = cat(sign, _immJ_T) @[Cat.scala 33:92]
    node immJ_hi = cat(immJ_hi_hi, _immJ_T_1) @[Cat.scala 33:92]
    node _immJ_T_3 = cat(immJ_hi, immJ_lo) @[Cat.scala 33:92]
    node immJ = asSInt(_immJ_T_3) @[Decoder.scala 33:82]
    node _immU_T = bits(io.inst, 31, 12) @[Decoder.scala 34:25]
    node immU = cat(_immU_T, UInt<12>("h0")) @[Cat.scala 33:92]
    node _immediate_T = pad(immI, 32) @[Decoder.scala 36:28]
    node _immediate_T_1 = asUInt(_immediate_T) @[Decoder.scala 36:28]
    wire immediate : UInt<32> @[Decoder.scala 36:26]
    immediate <= _immediate_T_1 @[Decoder.scala 36:26]
    when io.isLui : @[Decoder.scala 37:18]
      immediate <= immU @[Decoder.scala 37:30]
    when io.isStore : @[Decoder.scala 38:20]
      node _immediate_T_2 = pad(immS, 32) @[Decoder.scala 38:42]
      node _immediate_T_3 = asUInt(_immediate_T_2) @[Decoder.scala 38:42]
      immediate <= _immediate_T_3 @[Decoder.scala 38:32]
    when io.isBranch : @[Decoder.scala 39:21]
      node _immediate_T_4 = pad(immB, 32) @[Decoder.scala 39:43]
      node _immediate_T_5 = asUInt(_immediate_T_4) @[Decoder.scala 39:43]
      immediate <= _immediate_T_5 @[Decoder.scala 39:33]
    when io.isJal : @[Decoder.scala 40:18]
      node _immediate_T_6 = pad(immJ, 32) @[Decoder.scala 40:40]
      node _immediate_T_7 = asUInt(_immediate_T_6) @[Decoder.scala 40:40]
      immediate <= _immediate_T_7 @[Decoder.scala 40:30]
    io.immediate <= immediate @[Decoder.scala 41:16]

  module Alu :
    input clock : Clock
    input reset : UInt<1>
    output io : {flip funct3 : UInt<3>, flip subtract : UInt<1>, flip a : UInt<32>, flip b : UInt<32>, result : UInt<32>}

    node _sum_T = add(io.a, io.b) @[Alu.scala 15:18]
    node sum = tail(_sum_T, 1) @[Alu.scala 15:18]
    node _difference_T = sub(io.a, io.b) @[Alu.scala 16:25]
    node difference = tail(_difference_T, 1) @[Alu.scala 16:25]
    node _less_T = asSInt(io.a) @[Alu.scala 17:19]
    node _less_T_1 = asSInt(io.b) @[Alu.scala 17:33]
    node less = lt(_less_T, _less_T_1) @[Alu.scala 17:26]
    node _io_result_T = mux(io.subtract, difference, sum) @[Alu.scala 18:19]
    io.result <= _io_result_T @[Alu.scala 18:13]
    node _T = eq(UInt<3>("h2"), io.funct3) @[Alu.scala 19:22]
    when _T : @[Alu.scala 19:22]
      io.result <= less @[Alu.scala 20:27]
    else :
      node _T_1 = eq(UInt<3>("h4"), io.funct3) @[Alu.scala 19:22]
      when _T_1 : @[Alu.scala 19:22]
        node _io_result_T_1 = xor(io.a, io.b) @[Alu.scala 21:35]
        io.result <= _io_result_T_1 @[Alu.scala 21:27]
      else :
        node _T_2 = eq(UInt<3>("h6"), io.funct3) @[Alu.scala 19:22]
        when _T_2 : @[Alu.scala 19:22]
          node _io_result_T_2 = or(io.a, io.b) @[Alu.scala 22:35]
          io.result <= _io_result_T_2 @[Alu.scala 22:27]
        else :
          node _T_3 = eq(UInt<3>("h7"), io.funct3) @[Alu.scala 19:22]
          when _T_3 : @[Alu.scala 19:22]
            node _io_result_T_3 = and(io.a, io.b) @[Alu.scala 23:35]
            io.result <= _io_result_T_3 @[Alu.scala 23:27]

  module RiscvCore :
    input clock : Clock
    input reset : UInt<1>
    output io : {pc : UInt<32>, store : {valid : UInt<1>, addr : UInt<32>, data : UInt<32>}, halted : UInt<1>}

    reg pc : UInt<32>, clock with :
      reset => (reset, UInt<32>("h0")) @[RiscvCore.scala 24:19]
    mem code : @[RiscvCore.scala 25:20]
      data-type => UInt<32>
      depth => 16
      read-latency => 0
      write-latency => 1
      reader => fetch
      read-under-write => undefined
    mem registers : @[RiscvCore.scala 26:22]
      data-type => UInt<32>
      depth => 32
      read-latency => 0
      write-latency => 1
      reader => rs1
      reader => rs2
      writer => rd
      read-under-write => undefined
    mem data : @[RiscvCore.scala 27:17]
      data-type => UInt<32>
      depth => 4
      read-latency => 0
      write-latency => 1
      reader => load
      writer => store
      read-under-write => undefined
    inst decoder of Decoder @[RiscvCore.scala 28:23]
    decoder.clock <= clock
    decoder.reset <= reset
    inst alu of Alu @[RiscvCore.scala 29:19]
    alu.clock <= clock
    alu.reset <= reset
    node _inst_T = bits(pc, 5, 2) @[RiscvCore.scala 31:26]
    code.fetch.addr <= _inst_T @[RiscvCore.scala 31:21]
    code.fetch.en <= UInt<1>("h1") @[RiscvCore.scala 31:21]
    code.fetch.clk <= clock @[RiscvCore.scala 31:21]
    decoder.io.inst <= code.fetch.data @[RiscvCore.scala 32:19]
    node rd = bits(code.fetch.data, 11, 7) @[RiscvCore.scala 33:16]
    node funct3 = bits(code.fetch.data, 14, 12) @[RiscvCore.scala 34:20]
    node rs1 = bits(code.fetch.data, 19, 15) @[RiscvCore.scala 35:17]
    node rs2 = bits(code.fetch.data, 24, 20) @[RiscvCore.scala 36:17]
    node _registers_rs1_en_T = neq(rs1, UInt<1>("h0")) @[RiscvCore.scala 38:31]
    registers.rs1.addr <= rs1 @[RiscvCore.scala 38:20]
    registers.rs1.en <= _registers_rs1_en_T @[RiscvCore.scala 38:20]
    registers.rs1.clk <= clock @[RiscvCore.scala 38:20]
    node _registers_rs2_en_T = neq(rs2, UInt<1>("h0")) @[RiscvCore.scala 39:31]
    registers.rs2.addr <= rs2 @[RiscvCore.scala 39:20]
    registers.rs2.en <= _registers_rs2_en_T @[RiscvCore.scala 39:20]
    registers.rs2.clk <= clock @[RiscvCore.scala 39:20]
    node _alu_io_funct3_T = or(decoder.io.isImm, decoder.io.isReg) @[RiscvCore.scala 41:37]
    node _alu_io_funct3_T_1 = mux(_alu_io_funct3_T, funct3, UInt<1>("h0")) @[RiscvCore.scala 41:23]
    alu.io.funct3 <= _alu_io_funct3_T_1 @[RiscvCore.scala 41:17]
    node _alu_io_subtract_T = bits(code.fetch.data, 30, 30) @[RiscvCore.scala 42:46]
    node _alu_io_subtract_T_1 = and(decoder.io.isReg, _alu_io_subtract_T) @[RiscvCore.scala 42:39]
    alu.io.subtract <= _alu_io_subtract_T_1 @[RiscvCore.scala 42:19]
    alu.io.a <= registers.rs1.data @[RiscvCore.scala 43:12]
    node _alu_io_b_T = mux(decoder.io.isReg, registers.rs2.data, decoder.io.immediate) @[RiscvCore.scala 44:18]
    alu.io.b <= _alu_io_b_T @[RiscvCore.scala 44:12]
    node _data_load_addr_T = bits(alu.io.result, 3, 2) @[RiscvCore.scala 46:30]
    data.load.addr <= _data_load_addr_T @[RiscvCore.scala 46:18]
    data.load.en <= decoder.io.isLoad @[RiscvCore.scala 46:18]
    data.load.clk <= clock @[RiscvCore.scala 46:18]
    data.store.addr <= _data_load_addr_T @[RiscvCore.scala 48:9]
    data.store.en <= decoder.io.isStore @[RiscvCore.scala 47:28]
    data.store.clk <= clock @[RiscvCore.scala 48:9]
    data.store.data <= registers.rs2.data @[RiscvCore.scala 48:24]
    data.store.mask <= UInt<1>("h1") @[RiscvCore.scala 48:24]
    node _next_T = add(pc, UInt<3>("h4")) @[RiscvCore.scala 50:17]
    node next = tail(_next_T, 1) @[RiscvCore.scala 50:17]
    node _target_T = add(pc, decoder.io.immediate) @[RiscvCore.scala 51:19]
    node target = tail(_target_T, 1) @[RiscvCore.scala 51:19]
    node _taken_T = eq(registers.rs1.data, registers.rs2.data) @[RiscvCore.scala 52:21]
    node _taken_T_1 = bits(funct3, 0, 0) @[RiscvCore.scala 52:36]
    node _taken_T_2 = xor(_taken_T, _taken_T_1) @[RiscvCore.scala 52:29]
    node taken = and(decoder.io.isBranch, _taken_T_2) @[RiscvCore.scala 52:50]
    node jumps = or(decoder.io.isJal, taken) @[RiscvCore.scala 53:31]
    node _pc_T = mux(jumps, target, next) @[RiscvCore.scala 54:12]
    pc <= _pc_T @[RiscvCore.scala 54:6]
    node _writes_T = or(decoder.io.isLui, decoder.io.isImm) @[RiscvCore.scala 56:32]
    node _writes_T_1 = or(_writes_T, decoder.io.isReg) @[RiscvCore.scala 56:52]
    node _writes_T_2 = or(_writes_T_1, decoder.io.isLoad) @[RiscvCore.scala 56:72]
    node _writes_T_3 = or(_writes_T_2, decoder.io.isJal) @[RiscvCore.scala 56:93]
    node _writes_T_4 = neq(rd, UInt<1>("h0")) @[RiscvCore.scala 56:119]
    node writes = and(_writes_T_3, _writes_T_4) @[RiscvCore.scala 56:113]
    node _result_T = mux(decoder.io.isJal, next, alu.io.result) @[Mux.scala 101:16]
    node _result_T_1 = mux(decoder.io.isLoad, data.load.data, _result_T) @[Mux.scala 101:16]
    node result = mux(decoder.io.isLui, decoder.io.immediate, _result_T_1) @[Mux.scala 101:16]
    registers.rd.addr <= rd @[RiscvCore.scala 61:14]
    registers.rd.en <= writes @[RiscvCore.scala 60:16]
    registers.rd.clk <= clock @[RiscvCore.scala 61:14]
    registers.rd.data <= result @[RiscvCore.scala 61:19]
    registers.rd.mask <= UInt<1>("h1") @[RiscvCore.scala 61:19]
    io.pc <= pc @[RiscvCore.scala 63:9]
    io.store.valid <= decoder.io.isStore @[RiscvCore.scala 64:18]
    io.store.addr <= alu.io.result @[RiscvCore.scala 65:17]
    io.store.data <= registers.rs2.data @[RiscvCore.scala 66:17]
    node _io_halted_T = eq(target, pc) @[RiscvCore.scala 67:34]
    node _io_halted_T_1 = and(jumps, _io_halted_T) @[RiscvCore.scala 67:22]
    io.halted <= _io_halted_T_1 @[RiscvCore.scala 67:13]
