circuit T :
  module T :
    input v : Clock[2]
    input i : UInt<1>
    node n = v[i]
