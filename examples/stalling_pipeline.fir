FIRRTL version 2.0.0
circuit StallingPipeline :
  module StallingPipeline :
    input clock : Clock
    input reset : UInt<1>
    output io : {flip in : {valid : UInt<1>, a : UInt<4>, b : UInt<4>, c : UInt<4>}, flip stall : UInt<1>, flip flush : UInt<1>, out : {valid : UInt<1>, result : UInt<9>}}

    reg sums : {sum : UInt<5>, c : UInt<4>}, clock @[StallingPipeline.scala 17:17]
    reg products : {product : UInt<9>}, clock @[StallingPipeline.scala 18:21]
    reg sumsValid : UInt<1>, clock with :
      reset => (reset, UInt<1>("h0")) @[StallingPipeline.scala 19:26]
    reg productsValid : UInt<1>, clock with :
      reset => (reset, UInt<1>("h0")) @[StallingPipeline.scala 20:30]
    node _T = eq(io.stall, UInt<1>("h0")) @[StallingPipeline.scala 22:8]
    when _T : @[StallingPipeline.scala 22:19]
      node _sums_sum_T = add(io.in.a, io.in.b) @[StallingPipeline.scala 23:26]
      sums.sum <= _sums_sum_T @[StallingPipeline.scala 23:14]
      sums.c <= io.in.c @[StallingPipeline.scala 24:12]
      sumsValid <= io.in.valid @[StallingPipeline.scala 25:15]
      node _products_product_T = mul(sums.sum, sums.c) @[StallingPipeline.scala 26:34]
      products.product <= _products_product_T @[StallingPipeline.scala 26:22]
      productsValid <= sumsValid @[StallingPipeline.scala 27:19]
    when io.flush : @[StallingPipeline.scala 29:18]
      sumsValid <= UInt<1>("h0") @[StallingPipeline.scala 30:15]
      productsValid <= UInt<1>("h0") @[StallingPipeline.scala 31:19]
    node _io_out_valid_T = eq(io.stall, UInt<1>("h0")) @[StallingPipeline.scala 34:36]
    node _io_out_valid_T_1 = and(productsValid, _io_out_valid_T) @[StallingPipeline.scala 34:33]
    io.out.valid <= _io_out_valid_T_1 @[StallingPipeline.scala 34:16]
    io.out.result <= products.product @[StallingPipeline.scala 35:17]
