"""A second reading of what a text costs whose names and types are right: one for each ground leaf
of what is declared, of each expression and of each driven side, times what dynamic indices may
pick. Nothing is listed, so vectors may be of any length."""
import math

from inference_forms import (Asked, Call, Circuit, Declared, Elements, Entered, Literal, Stands,
                             Words, type_of)
from type_forms import Bundle, Vector

LIMIT = 4194304
MOST_TOLD = 2**64 - 1


def leaf_count(given):
    if isinstance(given, Vector):
        return given.length * leaf_count(given.element)
    if isinstance(given, Bundle):
        return sum(leaf_count(field.type) for field in given.fields)
    return 1


def size(expression):
    """Of an expression or a driven side, with its operands and indices."""
    if isinstance(expression, Literal):
        return 1
    if isinstance(expression, Call):
        return leaf_count(type_of(expression)) + sum(map(size, expression.operands))
    picked = math.prod(max(1, step.length) for step in expression.steps
                       if isinstance(step, Elements))
    return leaf_count(expression.type) * picked + sum(map(size, expression.indices))


def step_cost(step):
    """Of a declaration, an expression, a when or a memory's words."""
    if isinstance(step, Declared):
        return leaf_count(step.type) + (step.word == "inst")
    if isinstance(step, (Stands, Asked)):
        return size(step.expression)
    if isinstance(step, Words):
        return step.depth * leaf_count(step.data)
    return int(isinstance(step, Entered))


def module_cost(circuit, name, known):
    """Of a module with those of its instances, of which none holds itself."""
    if name not in known:
        module = circuit.modules[name]
        known[name] = (sum(map(step_cost, module.steps))
                       + sum(module_cost(circuit, of, known) for of in module.instances.values()))
    return known[name]


def cost(circuit):
    """The main module's, and each other module's once."""
    known = {}
    return sum(module_cost(circuit, name, known) for name in circuit.modules)


def cost_fault(text):
    """The line of E23, or None."""
    circuit = Circuit(text)
    found = cost(circuit)
    return f"E23 {circuit.at} cost {min(found, MOST_TOLD)}" if found > LIMIT else None
