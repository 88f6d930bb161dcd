circuit T :
  module T :
    input v : Clock[2]
    input i : UInt<1>
    inst u of A
    u.v <= v
    u.i <= i
  module A :
    input v : Clock[2]
    input i : UInt<1>
    reg r : {x : UInt<4>}, v[i]
    r <= r
