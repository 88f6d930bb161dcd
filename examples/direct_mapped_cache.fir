FIRRTL version 1.1.0
circuit DirectMappedCache :
  module DirectMappedCache :
    input clock : Clock
    input reset : UInt<1>
    output io : {flip request : {valid : UInt<1>, write : UInt<1>, addr : UInt<8>, data : UInt<8>[4], mask : UInt<1>[4]}, flip fill : {valid : UInt<1>, addr : UInt<8>, data : UInt<8>[4]}, hit : UInt<1>, line : UInt<8>[4]}

    reg valids : UInt<4>, clock with :
      reset => (reset, UInt<4>("h0")) @[DirectMappedCache.scala 24:23]
    mem tags : @[DirectMappedCache.scala 25:17]
      data-type => UInt<4>
      depth => 4
      read-latency => 0
      write-latency => 1
      reader => lookup
      writer => fill
      read-under-write => undefined
    mem lines : @[DirectMappedCache.scala 26:26]
      data-type => UInt<8>[4]
      depth => 4
      read-latency => 1
      write-latency => 1
      reader => read
      writer => write
      read-under-write => old
    node tag = bits(io.request.addr, 7, 4) @[DirectMappedCache.scala 28:29]
    node index = bits(io.request.addr, 3, 2) @[DirectMappedCache.scala 29:31]
    tags.lookup.addr <= index @[DirectMappedCache.scala 31:20]
    tags.lookup.en <= UInt<1>("h1") @[DirectMappedCache.scala 31:20]
    tags.lookup.clk <= clock @[DirectMappedCache.scala 31:20]
    node _hit_T = dshr(valids, index) @[DirectMappedCache.scala 32:19]
    node _hit_T_1 = bits(_hit_T, 0, 0) @[DirectMappedCache.scala 32:19]
    node _hit_T_2 = eq(tags.lookup.data, tag) @[DirectMappedCache.scala 32:41]
    node _hit_T_3 = and(_hit_T_1, _hit_T_2) @[DirectMappedCache.scala 32:27]
    node hit = and(io.request.valid, _hit_T_3) @[DirectMappedCache.scala 32:54]
    io.hit <= hit @[DirectMappedCache.scala 33:10]
    node _lines_read_en_T = eq(io.request.write, UInt<1>("h0")) @[DirectMappedCache.scala 35:45]
    node _lines_read_en_T_1 = and(hit, _lines_read_en_T) @[DirectMappedCache.scala 35:42]
    lines.read.addr <= index @[DirectMappedCache.scala 35:24]
    lines.read.en <= _lines_read_en_T_1 @[DirectMappedCache.scala 35:24]
    lines.read.clk <= clock @[DirectMappedCache.scala 35:24]
    io.line <= lines.read.data @[DirectMappedCache.scala 35:11]
    node fill_index = bits(io.fill.addr, 3, 2) @[DirectMappedCache.scala 37:33]
    node _tags_fill_data_T = bits(io.fill.addr, 7, 4) @[DirectMappedCache.scala 39:41]
    tags.fill.addr <= fill_index @[DirectMappedCache.scala 39:15]
    tags.fill.en <= io.fill.valid @[DirectMappedCache.scala 38:23]
    tags.fill.clk <= clock @[DirectMappedCache.scala 39:15]
    tags.fill.data <= _tags_fill_data_T @[DirectMappedCache.scala 39:15]
    tags.fill.mask <= UInt<1>("h1") @[DirectMappedCache.scala 39:15]
    lines.write.addr <= index @[DirectMappedCache.scala 43:16]
    node _lines_write_en_T = and(hit, io.request.write) @[DirectMappedCache.scala 42:20]
    lines.write.en <= _lines_write_en_T @[DirectMappedCache.scala 42:39]
    lines.write.clk <= clock @[DirectMappedCache.scala 43:16]
    lines.write.data <= io.request.data @[DirectMappedCache.scala 43:16]
    lines.write.mask <= io.request.mask @[DirectMappedCache.scala 43:16]
    when io.fill.valid : @[DirectMappedCache.scala 45:23]
      node _valids_T = dshl(UInt<1>("h1"), fill_index) @[OneHot.scala 57:35]
      node _valids_T_1 = or(valids, _valids_T) @[DirectMappedCache.scala 46:22]
      valids <= _valids_T_1 @[DirectMappedCache.scala 46:12]
      lines.write.addr <= fill_index @[DirectMappedCache.scala 47:16]
      lines.write.en <= UInt<1>("h1") @[DirectMappedCache.scala 47:16]
      lines.write.data <= io.fill.data @[DirectMappedCache.scala 47:16]
      lines.write.mask[0] <= UInt<1>("h1") @[DirectMappedCache.scala 47:16]
      lines.write.mask[1] <= UInt<1>("h1") @[DirectMappedCache.scala 47:16]
      lines.write.mask[2] <= UInt<1>("h1") @[DirectMappedCache.scala 47:16]
      lines.write.mask[3] <= UInt<1>("h1") @[DirectMappedCache.scala 47:16]
