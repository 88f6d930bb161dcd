"""Makes texts at random whose forms are nested about as deep as firc takes."""
from grammar_texts import body

EXPRESSIONS = ["not({})", "add(b, {})", "bits({}, 3, 0)", "mux(c, {}, UInt<4>(5))", "a[{}]",
               "validif({}, d)", "a.x[{}].y", "a[{}][2]", "cat({}, add(b, c))"]
TYPES = ["{{x : {}}}", "{{y : UInt, flip x : {}}}", "{{x : {}, z : {{}}}}", "{}[2]"]
STATEMENTS = ["node n = {}", "o <= {}", "o[{}] <- b", "a[{}].x is invalid", "when {} :",
              "reg r : UInt, clock with : (reset => (b, {}))"]


def nested(chance, forms, inner, count):
    for _ in range(count):
        inner = chance.choice(forms).format(inner)
    return inner


def whens(chance, lines, count):
    """Lines within blocks of whens."""
    for _ in range(count):
        way = chance.random()
        if way < 0.4:
            lines = ["when c :", *("  " + line for line in lines)]
        elif way < 0.7:
            lines = ["when c :", "  skip", "else :", *("  " + line for line in lines)]
        else:
            lines = ["when c :", "else when d :", *("  " + line for line in lines)]
    return lines


def made(chance):
    """The text of a circuit, whose names need not be declared."""
    depth = chance.choice([0, 1, 2, 5, 30, 126, 250])
    count = max(0, chance.randint(250, 262) - depth)
    if chance.random() < 0.3:
        line = "wire w : " + nested(chance, TYPES, chance.choice(["UInt<3>", "{}", "Clock"]), count)
    else:
        forms = chance.sample(EXPRESSIONS, chance.randint(1, len(EXPRESSIONS)))
        inner = chance.choice(["b", "UInt(5)", "a.x", "a[0]"])
        line = chance.choice(STATEMENTS).format(nested(chance, forms, inner, count))
    return body("\n".join(whens(chance, [line], depth)))
