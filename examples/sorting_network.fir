FIRRTL version 1.1.0
circuit SortingNetwork :
  module SortingNetwork :
    input clock : Clock
    input reset : UInt<1>
    output io : {flip in : {key : UInt<4>, tag : UInt<2>}[4], out : {key : UInt<4>, tag : UInt<2>}[4]}

    node swap = gt(io.in[0].key, io.in[1].key) @[SortingNetwork.scala 15:26]
    node low_0 = mux(swap, io.in[1], io.in[0]) @[SortingNetwork.scala 16:20]
    node high_0 = mux(swap, io.in[0], io.in[1]) @[SortingNetwork.scala 17:21]
    node swap_1 = gt(io.in[2].key, io.in[3].key) @[SortingNetwork.scala 15:26]
    node low_1 = mux(swap_1, io.in[3], io.in[2]) @[SortingNetwork.scala 16:20]
    node high_1 = mux(swap_1, io.in[2], io.in[3]) @[SortingNetwork.scala 17:21]
    node swap_2 = gt(low_0.key, low_1.key) @[SortingNetwork.scala 15:26]
    node low_2 = mux(swap_2, low_1, low_0) @[SortingNetwork.scala 16:20]
    node high_2 = mux(swap_2, low_0, low_1) @[SortingNetwork.scala 17:21]
    node swap_3 = gt(high_0.key, high_1.key) @[SortingNetwork.scala 15:26]
    node low_3 = mux(swap_3, high_1, high_0) @[SortingNetwork.scala 16:20]
    node high_3 = mux(swap_3, high_0, high_1) @[SortingNetwork.scala 17:21]
    node swap_4 = gt(low_3.key, high_2.key) @[SortingNetwork.scala 15:26]
    node low_4 = mux(swap_4, high_2, low_3) @[SortingNetwork.scala 16:20]
    node high_4 = mux(swap_4, low_3, high_2) @[SortingNetwork.scala 17:21]
    io.out[0] <= low_2 @[SortingNetwork.scala 22:12]
    io.out[1] <= low_4 @[SortingNetwork.scala 22:12]
    io.out[2] <= high_4 @[SortingNetwork.scala 22:12]
    io.out[3] <= high_3 @[SortingNetwork.scala 22:12]
