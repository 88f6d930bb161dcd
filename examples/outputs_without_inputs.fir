FIRRTL version 1.1.0
circuit OutputsWithoutInputs :
  module OutputsWithoutInputs :
    output magic : UInt<32>
    output zero : UInt<1>
    magic <= UInt<32>("hdeadbeef")
    zero <= UInt<1>(0)
