FIRRTL version 1.1.0
circuit TrafficLight :
  module TrafficLight :
    input clock : Clock
    input reset : UInt<1>
    output io : {flip car : UInt<1>, main : {red : UInt<1>, yellow : UInt<1>, green : UInt<1>}, side : {red : UInt<1>, yellow : UInt<1>, green : UInt<1>}}

    reg state : UInt<2>, clock with : (reset => (reset, UInt<2>("h0"))) @[TrafficLight.scala 19:22]
    reg timer : UInt<3>, clock with : (reset => (reset, UInt<3>("h4"))) @[TrafficLight.scala 20:22]
    node isOver = eq(timer, UInt<1>("h0")) @[TrafficLight.scala 21:22]
    node _timer_T = sub(timer, UInt<1>("h1")) @[TrafficLight.scala 22:40]
    node _timer_T_1 = tail(_timer_T, 1) @[TrafficLight.scala 22:40]
    node _timer_T_2 = mux(isOver, UInt<1>("h0"), _timer_T_1) @[TrafficLight.scala 22:15]
    timer <= _timer_T_2 @[TrafficLight.scala 22:9]
    io.main.red <= UInt<1>("h0") @[TrafficLight.scala 24:15]
    io.main.yellow <= UInt<1>("h0") @[TrafficLight.scala 24:36]
    io.main.green <= UInt<1>("h0") @[TrafficLight.scala 24:56]
    io.side.red <= UInt<1>("h0") @[TrafficLight.scala 25:15]
    io.side.yellow <= UInt<1>("h0") @[TrafficLight.scala 25:36]
    io.side.green <= UInt<1>("h0") @[TrafficLight.scala 25:56]
    node _T = eq(UInt<2>("h0"), state) @[Conditional.scala 37:30]
    when _T : @[Conditional.scala 40:58]
      io.main.green <= UInt<1>("h1") @[TrafficLight.scala 28:21]
      io.side.red <= UInt<1>("h1") @[TrafficLight.scala 28:42]
      node _T_1 = and(isOver, io.car) @[TrafficLight.scala 29:20]
      when _T_1 : @[TrafficLight.scala 29:31]
        state <= UInt<2>("h1") @[TrafficLight.scala 29:39]
        timer <= UInt<1>("h1") @[TrafficLight.scala 29:57]
    else :
      node _T_2 = eq(UInt<2>("h1"), state) @[Conditional.scala 37:30]
      when _T_2 : @[Conditional.scala 39:67]
        io.main.yellow <= UInt<1>("h1") @[TrafficLight.scala 32:22]
        io.side.red <= UInt<1>("h1") @[TrafficLight.scala 32:43]
        when isOver : @[TrafficLight.scala 33:21]
          state <= UInt<2>("h2") @[TrafficLight.scala 33:29]
          timer <= UInt<2>("h2") @[TrafficLight.scala 33:50]
      else :
        node _T_3 = eq(UInt<2>("h2"), state) @[Conditional.scala 37:30]
        when _T_3 : @[Conditional.scala 39:67]
          io.main.red <= UInt<1>("h1") @[TrafficLight.scala 36:19]
          io.side.green <= UInt<1>("h1") @[TrafficLight.scala 36:42]
          when isOver : @[TrafficLight.scala 37:21]
            state <= UInt<2>("h3") @[TrafficLight.scala 37:29]
            timer <= UInt<1>("h1") @[TrafficLight.scala 37:51]
        else :
          node _T_4 = eq(UInt<2>("h3"), state) @[Conditional.scala 37:30]
          when _T_4 : @[Conditional.scala 39:67]
            io.main.red <= UInt<1>("h1") @[TrafficLight.scala 40:19]
            io.side.yellow <= UInt<1>("h1") @[TrafficLight.scala 40:43]
            when isOver : @[TrafficLight.scala 41:21]
              state <= UInt<2>("h0") @[TrafficLight.scala 41:29]
              timer <= UInt<3>("h4") @[TrafficLight.scala 41:50]
