FIRRTL version 1.1.0
circuit VendingMachine :
  module VendingMachine :
    input clock : Clock
    input reset : UInt<1>
    output io : {flip nickel : UInt<1>, flip dime : UInt<1>, valid : UInt<1>, change : UInt<1>}

    reg paid : UInt<3>, clock with :
      reset => (reset, UInt<3>("h0")) @[VendingMachine.scala 12:21]
    node isPaid = geq(paid, UInt<3>("h4")) @[VendingMachine.scala 13:21]
    when isPaid : @[VendingMachine.scala 15:16]
      paid <= UInt<1>("h0") @[VendingMachine.scala 16:10]
    else when io.dime : @[VendingMachine.scala 17:24]
      node _paid_T = add(paid, UInt<2>("h2")) @[VendingMachine.scala 18:18]
      node _paid_T_1 = tail(_paid_T, 1) @[VendingMachine.scala 18:18]
      paid <= _paid_T_1 @[VendingMachine.scala 18:10]
    else when io.nickel : @[VendingMachine.scala 19:26]
      node _paid_T_2 = add(paid, UInt<1>("h1")) @[VendingMachine.scala 20:18]
      node _paid_T_3 = tail(_paid_T_2, 1) @[VendingMachine.scala 20:18]
      paid <= _paid_T_3 @[VendingMachine.scala 20:10]
    io.valid <= isPaid @[VendingMachine.scala 23:12]
    node _io_change_T = gt(paid, UInt<3>("h4")) @[VendingMachine.scala 24:21]
    io.change <= _io_change_T @[VendingMachine.scala 24:13]
