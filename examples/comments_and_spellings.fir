FIRRTL version 1.1.0
circuit CommentsAndSpellings : %[[{"class":"x]"}]]
  ; words of the language are names where a name may stand

  module CommentsAndSpellings :
    input input : UInt<4> @[T.scala 9:14]
    input reset : UInt< 4 >
    output output : UInt<04>

    node node = not ( input ) ; a comment
    output<=xor(node,and(reset,UInt<4>("h+C"))) @[T.scala 10:5]
