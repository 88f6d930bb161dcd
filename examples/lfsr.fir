FIRRTL version 1.2.0
circuit Lfsr : %[[{"class":"firrtl.transforms.DontTouchAnnotation","target":"~Lfsr|Lfsr>state"}]]
  module Lfsr :
    input clock : Clock
    input reset : UInt<1>
    output io : {flip seed : {valid : UInt<1>, bits : UInt<16>}, flip increment : UInt<1>, out : UInt<16>}

    reg state : UInt<16>, clock with :
      reset => (reset, UInt<16>("h1")) @[Lfsr.scala 14:22]
    when io.increment : @[Lfsr.scala 15:22]
      node _T = bits(state, 15, 15) @[LFSR.scala 15:41]
      node _T_1 = bits(state, 13, 13) @[LFSR.scala 15:41]
      node _T_2 = xor(_T, _T_1) @[LFSR.scala 15:41]
      node _T_3 = bits(state, 12, 12) @[LFSR.scala 15:41]
      node _T_4 = xor(_T_2, _T_3) @[LFSR.scala 15:41]
      node _T_5 = bits(state, 10, 10) @[LFSR.scala 15:41]
      node _T_6 = xor(_T_4, _T_5) @[LFSR.scala 15:41]
      node _state_T = bits(state, 14, 0) @[Lfsr.scala 16:23]
      node _state_T_1 = cat(_state_T, _T_6) @[Cat.scala 31:58]
      state <= _state_T_1 @[Lfsr.scala 16:11]
    when io.seed.valid : @[Lfsr.scala 18:23]
      node _state_T_2 = orr(io.seed.bits) @[Lfsr.scala 19:35]
      node _state_T_3 = mux(_state_T_2, io.seed.bits, UInt<16>("h1")) @[Lfsr.scala 19:17]
      state <= _state_T_3 @[Lfsr.scala 19:11]
    io.out <= state @[Lfsr.scala 22:10]
