FIRRTL version 1.1.0
circuit SequenceDetector :
  module SequenceDetector :
    input clock : Clock
    input reset : UInt<1>
    output io : {flip in : {valid : UInt<1>, bits : UInt<1>}, found : UInt<1>, state : UInt<2>}

    reg state : UInt<2>, clock with :
      reset => (reset, UInt<2>("h0")) @[SequenceDetector.scala 15:22]
    io.found <= UInt<1>("h0") @[SequenceDetector.scala 16:12]
    when io.in.valid : @[SequenceDetector.scala 17:21]
      node _T = eq(UInt<2>("h0"), state) @[Conditional.scala 37:30]
      when _T : @[Conditional.scala 40:58]
        when io.in.bits : @[SequenceDetector.scala 19:30]
          state <= UInt<2>("h1") @[SequenceDetector.scala 19:38]
      else :
        node _T_1 = eq(UInt<2>("h1"), state) @[Conditional.scala 37:30]
        when _T_1 : @[Conditional.scala 39:67]
          node _T_2 = eq(io.in.bits, UInt<1>("h0")) @[SequenceDetector.scala 20:20]
          when _T_2 : @[SequenceDetector.scala 20:33]
            state <= UInt<2>("h2") @[SequenceDetector.scala 20:41]
        else :
          node _T_3 = eq(UInt<2>("h2"), state) @[Conditional.scala 37:30]
          when _T_3 : @[Conditional.scala 39:67]
            node _state_T = mux(io.in.bits, UInt<2>("h3"), UInt<1>("h0")) @[SequenceDetector.scala 21:28]
            state <= _state_T @[SequenceDetector.scala 21:22]
          else :
            node _T_4 = eq(UInt<2>("h3"), state) @[Conditional.scala 37:30]
            when _T_4 : @[Conditional.scala 39:67]
              io.found <= io.in.bits @[SequenceDetector.scala 23:18]
              node _state_T_1 = mux(io.in.bits, UInt<1>("h1"), UInt<2>("h2")) @[SequenceDetector.scala 24:21]
              state <= _state_T_1 @[SequenceDetector.scala 24:15]
    io.state <= state @[SequenceDetector.scala 28:12]
