FIRRTL version 1.1.0
circuit Alu :
  module Alu :
    input clock : Clock
    input reset : UInt<1>
    output io : {flip op : UInt<4>, flip a : UInt<8>, flip b : UInt<8>, result : UInt<8>, zero : UInt<1>, negative : UInt<1>}

    wire result : UInt<8> @[Alu.scala 16:20]
    result is invalid @[Alu.scala 17:10]
    node _T = eq(UInt<4>("h0"), io.op) @[Conditional.scala 37:30]
    when _T : @[Conditional.scala 40:58]
      node _result_T = add(io.a, io.b) @[Alu.scala 19:30]
      node _result_T_1 = tail(_result_T, 1) @[Alu.scala 19:32]
      result <= _result_T_1 @[Alu.scala 19:24]
    else :
      node _T_1 = eq(UInt<4>("h1"), io.op) @[Conditional.scala 37:30]
      when _T_1 : @[Conditional.scala 39:67]
        node _result_T_2 = sub(io.a, io.b) @[Alu.scala 20:30]
        node _result_T_3 = tail(_result_T_2, 1) @[Alu.scala 20:32]
        result <= _result_T_3 @[Alu.scala 20:24]
      else :
        node _T_2 = eq(UInt<4>("h2"), io.op) @[Conditional.scala 37:30]
        when _T_2 : @[Conditional.scala 39:67]
          node _result_T_4 = and(io.a, io.b) @[Alu.scala 21:30]
          result <= _result_T_4 @[Alu.scala 21:24]
        else :
          node _T_3 = eq(UInt<4>("h3"), io.op) @[Conditional.scala 37:30]
          when _T_3 : @[Conditional.scala 39:67]
            node _result_T_5 = or(io.a, io.b) @[Alu.scala 22:30]
            result <= _result_T_5 @[Alu.scala 22:24]
          else :
            node _T_4 = eq(UInt<4>("h4"), io.op) @[Conditional.scala 37:30]
            when _T_4 : @[Conditional.scala 39:67]
              node _result_T_6 = xor(io.a, io.b) @[Alu.scala 23:30]
              result <= _result_T_6 @[Alu.scala 23:24]
            else :
              node _T_5 = eq(UInt<4>("h5"), io.op) @[Conditional.scala 37:30]
              when _T_5 : @[Conditional.scala 39:67]
                node _result_T_7 = not(io.a) @[Alu.scala 24:30]
                result <= _result_T_7 @[Alu.scala 24:24]
              else :
                node _T_6 = eq(UInt<4>("h6"), io.op) @[Conditional.scala 37:30]
                when _T_6 : @[Conditional.scala 39:67]
                  node _result_T_8 = asSInt(io.a) @[Alu.scala 25:30]
                  node _result_T_9 = asSInt(io.b) @[Alu.scala 25:32]
                  node _result_T_10 = lt(_result_T_8, _result_T_9) @[Alu.scala 25:34]
                  result <= _result_T_10 @[Alu.scala 25:24]
                else :
                  node _T_7 = eq(UInt<4>("h7"), io.op) @[Conditional.scala 37:30]
                  when _T_7 : @[Conditional.scala 39:67]
                    node _result_T_11 = lt(io.a, io.b) @[Alu.scala 26:30]
                    result <= _result_T_11 @[Alu.scala 26:24]
                  else :
                    node _T_8 = eq(UInt<4>("h8"), io.op) @[Conditional.scala 37:30]
                    when _T_8 : @[Conditional.scala 39:67]
                      node _result_T_12 = bits(io.b, 2, 0) @[Alu.scala 27:30]
                      node _result_T_13 = dshl(io.a, _result_T_12) @[Alu.scala 27:32]
                      node _result_T_14 = bits(_result_T_13, 7, 0) @[Alu.scala 27:34]
                      result <= _result_T_14 @[Alu.scala 27:24]
                    else :
                      node _T_9 = eq(UInt<4>("h9"), io.op) @[Conditional.scala 37:30]
                      when _T_9 : @[Conditional.scala 39:67]
                        node _result_T_15 = bits(io.b, 2, 0) @[Alu.scala 28:30]
                        node _result_T_16 = dshr(io.a, _result_T_15) @[Alu.scala 28:32]
                        result <= _result_T_16 @[Alu.scala 28:24]
                      else :
                        node _T_10 = eq(UInt<4>("ha"), io.op) @[Conditional.scala 37:30]
                        when _T_10 : @[Conditional.scala 39:67]
                          node _result_T_17 = asSInt(io.a) @[Alu.scala 29:30]
                          node _result_T_18 = bits(io.b, 2, 0) @[Alu.scala 29:32]
                          node _result_T_19 = dshr(_result_T_17, _result_T_18) @[Alu.scala 29:34]
                          node _result_T_20 = asUInt(_result_T_19) @[Alu.scala 29:36]
                          result <= _result_T_20 @[Alu.scala 29:24]
                        else :
                          node _T_11 = eq(UInt<4>("hb"), io.op) @[Conditional.scala 37:30]
                          when _T_11 : @[Conditional.scala 39:67]
                            node _result_T_21 = mul(io.a, io.b) @[Alu.scala 30:30]
                            node _result_T_22 = bits(_result_T_21, 7, 0) @[Alu.scala 30:32]
                            result <= _result_T_22 @[Alu.scala 30:24]
                          else :
                            node _T_12 = eq(UInt<4>("hc"), io.op) @[Conditional.scala 37:30]
                            when _T_12 : @[Conditional.scala 39:67]
                              node _result_T_23 = div(io.a, io.b) @[Alu.scala 31:30]
                              result <= _result_T_23 @[Alu.scala 31:24]
                            else :
                              node _T_13 = eq(UInt<4>("hd"), io.op) @[Conditional.scala 37:30]
                              when _T_13 : @[Conditional.scala 39:67]
                                node _result_T_24 = rem(io.a, io.b) @[Alu.scala 32:30]
                                result <= _result_T_24 @[Alu.scala 32:24]
                              else :
                                node _T_14 = eq(UInt<4>("he"), io.op) @[Conditional.scala 37:30]
                                when _T_14 : @[Conditional.scala 39:67]
                                  node _result_T_25 = asSInt(io.a) @[Alu.scala 33:30]
                                  node _result_T_26 = asSInt(io.b) @[Alu.scala 33:32]
                                  node _result_T_27 = div(_result_T_25, _result_T_26) @[Alu.scala 33:34]
                                  node _result_T_28 = asUInt(_result_T_27) @[Alu.scala 33:36]
                                  node _result_T_29 = bits(_result_T_28, 7, 0) @[Alu.scala 33:38]
                                  result <= _result_T_29 @[Alu.scala 33:24]
                                else :
                                  node _T_15 = eq(UInt<4>("hf"), io.op) @[Conditional.scala 37:30]
                                  when _T_15 : @[Conditional.scala 39:67]
                                    node _result_T_30 = asSInt(io.a) @[Alu.scala 34:30]
                                    node _result_T_31 = asSInt(io.b) @[Alu.scala 34:32]
                                    node _result_T_32 = rem(_result_T_30, _result_T_31) @[Alu.scala 34:34]
                                    node _result_T_33 = asUInt(_result_T_32) @[Alu.scala 34:36]
                                    result <= _result_T_33 @[Alu.scala 34:24]
    io.result <= result @[Alu.scala 37:13]
    node _io_zero_T = eq(result, UInt<1>("h0")) @[Alu.scala 38:21]
    io.zero <= _io_zero_T @[Alu.scala 38:11]
    node _io_negative_T = head(result, 1) @[Alu.scala 39:24]
    io.negative <= _io_negative_T @[Alu.scala 39:15]
