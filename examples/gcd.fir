FIRRTL version 1.1.0
circuit Gcd :
  module Gcd :
    input clock : Clock
    input reset : UInt<1>
    output io : {flip load : UInt<1>, flip a : UInt<8>, flip b : UInt<8>, result : UInt<8>, valid : UInt<1>}

    reg x : UInt, clock @[Gcd.scala 14:14]
    reg y : UInt, clock @[Gcd.scala 15:14]
    node _T = gt(x, y) @[Gcd.scala 17:10]
    when _T : @[Gcd.scala 17:15]
      node _x_T = sub(x, y) @[Gcd.scala 18:12]
      node _x_T_1 = tail(_x_T, 1) @[Gcd.scala 18:12]
      x <= _x_T_1 @[Gcd.scala 18:7]
    else :
      node _y_T = sub(y, x) @[Gcd.scala 20:12]
      node _y_T_1 = tail(_y_T, 1) @[Gcd.scala 20:12]
      y <= _y_T_1 @[Gcd.scala 20:7]
    when io.load : @[Gcd.scala 22:17]
      x <= io.a @[Gcd.scala 23:7]
      y <= io.b @[Gcd.scala 24:7]
    io.result <= x @[Gcd.scala 27:13]
    node _io_valid_T = eq(y, UInt<1>("h0")) @[Gcd.scala 28:17]
    io.valid <= _io_valid_T @[Gcd.scala 28:12]
