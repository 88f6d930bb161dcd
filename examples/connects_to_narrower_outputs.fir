FIRRTL version 1.1.0
circuit ConnectsToNarrowerOutputs :
  module ConnectsToNarrowerOutputs :
    input a : UInt<8>
    input b : UInt<128>
    output low : UInt<4>
    output lowest : UInt<1>
    output half : UInt<64>
    output mixed : UInt<3>
    low <= a
    lowest <= not(a)
    half <= b
    mixed <= xor(a, b)
