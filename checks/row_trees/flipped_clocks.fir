circuit T :
  module T :
    input i : UInt<1>
    input j : UInt<1>
    output z : {flip c : Clock}[2]
    wire v : {flip c : Clock}[2]
    z[j] <= v[i]
