FIRRTL version 1.1.0
circuit WidthsUpTo128 :
  module WidthsUpTo128 :
    input left : UInt<128>
    input right : UInt<128>
    input narrow : UInt<65>
    output either : UInt<128>
    output neither : UInt<128>
    output turned : UInt<65>
    output through : UInt<128>
    node e = or(left, right)
    either <= e
    neither <= not(e)
    turned <= not(narrow)
    through <= left
