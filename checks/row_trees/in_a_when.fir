circuit T :
  module T :
    input a : UInt<1>
    input c : UInt<1>
    output o : UInt<1>
    when c :
      o <= a
