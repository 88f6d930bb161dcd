FIRRTL version 1.1.0
circuit ComplexMultiplier :
  module ComplexMultiplier :
    input clock : Clock
    input reset : UInt<1>
    output io : {flip x : {re : SInt<6>, im : SInt<6>}, flip y : {re : SInt<6>, im : SInt<6>}, flip conjugate : UInt<1>, product : {re : SInt<13>, im : SInt<13>}, isReal : UInt<1>}

    wire y : {re : SInt<7>, im : SInt<7>} @[ComplexMultiplier.scala 19:15]
    node _y_re_T = pad(io.y.re, 7) @[ComplexMultiplier.scala 20:18]
    y.re <= _y_re_T @[ComplexMultiplier.scala 20:8]
    node _y_im_T = pad(io.y.im, 7) @[ComplexMultiplier.scala 21:41]
    node _y_im_T_1 = neg(io.y.im) @[ComplexMultiplier.scala 21:30]
    node _y_im_T_2 = mux(io.conjugate, _y_im_T_1, _y_im_T) @[ComplexMultiplier.scala 21:14]
    y.im <= _y_im_T_2 @[ComplexMultiplier.scala 21:8]
    reg products : SInt<13>[4], clock @[ComplexMultiplier.scala 23:21]
    node _products_0_T = mul(io.x.re, y.re) @[ComplexMultiplier.scala 24:26]
    products[0] <= _products_0_T @[ComplexMultiplier.scala 24:15]
    node _products_1_T = mul(io.x.im, y.im) @[ComplexMultiplier.scala 25:26]
    products[1] <= _products_1_T @[ComplexMultiplier.scala 25:15]
    node _products_2_T = mul(io.x.re, y.im) @[ComplexMultiplier.scala 26:26]
    products[2] <= _products_2_T @[ComplexMultiplier.scala 26:15]
    node _products_3_T = mul(io.x.im, y.re) @[ComplexMultiplier.scala 27:26]
    products[3] <= _products_3_T @[ComplexMultiplier.scala 27:15]
    reg product : {re : SInt<13>, im : SInt<13>}, clock @[ComplexMultiplier.scala 29:20]
    node _product_re_T = sub(products[0], products[1]) @[ComplexMultiplier.scala 30:29]
    node _product_re_T_1 = tail(_product_re_T, 1) @[ComplexMultiplier.scala 30:29]
    node _product_re_T_2 = asSInt(_product_re_T_1) @[ComplexMultiplier.scala 30:29]
    product.re <= _product_re_T_2 @[ComplexMultiplier.scala 30:14]
    node _product_im_T = add(products[2], products[3]) @[ComplexMultiplier.scala 31:29]
    node _product_im_T_1 = tail(_product_im_T, 1) @[ComplexMultiplier.scala 31:29]
    node _product_im_T_2 = asSInt(_product_im_T_1) @[ComplexMultiplier.scala 31:29]
    product.im <= _product_im_T_2 @[ComplexMultiplier.scala 31:14]
    io.product <= product @[ComplexMultiplier.scala 33:14]
    node _io_isReal_T = eq(product.im, asSInt(UInt<1>("h0"))) @[ComplexMultiplier.scala 34:27]
    io.isReal <= _io_isReal_T @[ComplexMultiplier.scala 34:13]
