circuit T :
  module T :
    input i : UInt<1>
    input j : UInt<1>
    wire v : {flip b : UInt<1>, flip x : {flip b : UInt<1>, flip x : {flip b : UInt<1>}}}[1]
    v is invalid
    v[0].b <= v[0].x.b
    v[i] <- v[j].x
