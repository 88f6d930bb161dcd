FIRRTL version 1.1.0
;buildInfoPackage: chisel3, version: 3.4.3, scalaVersion: 2.12.12, sbtVersion: 1.3.10
circuit GrayCounter :
  module GrayCounter :
    input clock : Clock
    input reset : UInt<1>
    output io : {flip enable : UInt<1>, gray : UInt<4>, binary : UInt<4>}

    reg count : UInt<4>, clock with :
      reset => (reset, UInt<4>("h0")) @[GrayCounter.scala 12:22]
    when io.enable : @[GrayCounter.scala 13:19]
      node _count_T = add(count, UInt<1>("h1")) @[GrayCounter.scala 14:20]
      node _count_T_1 = tail(_count_T, 1) @[GrayCounter.scala 14:20]
      count <= _count_T_1 @[GrayCounter.scala 14:11]
    node _io_gray_T = shr(count, 1) @[GrayCounter.scala 16:28]
    node _io_gray_T_1 = xor(count, _io_gray_T) @[GrayCounter.scala 16:20]
    io.gray <= _io_gray_T_1 @[GrayCounter.scala 16:11]
    node top = bits(io.gray, 3, 3) @[GrayCounter.scala 18:20]
    node _next_T = bits(io.gray, 2, 2) @[GrayCounter.scala 19:27]
    node next = xor(top, _next_T) @[GrayCounter.scala 19:18]
    node _low_T = bits(io.gray, 1, 1) @[GrayCounter.scala 20:27]
    node low = xor(next, _low_T) @[GrayCounter.scala 20:18]
    node _lowest_T = bits(io.gray, 0, 0) @[GrayCounter.scala 21:29]
    node lowest = xor(low, _lowest_T) @[GrayCounter.scala 21:20]
    node io_binary_lo = cat(low, lowest) @[Cat.scala 31:58]
    node io_binary_hi = cat(top, next) @[Cat.scala 31:58]
    node _io_binary_T = cat(io_binary_hi, io_binary_lo) @[Cat.scala 31:58]
    io.binary <= _io_binary_T @[GrayCounter.scala 22:13]
