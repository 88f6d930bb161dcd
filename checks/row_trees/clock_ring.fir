circuit T :
  module T :
    wire w : Clock
    wire x : Clock
    w <= x
    x <= w
