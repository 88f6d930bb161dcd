"""The types of the language: how they are printed, which of them fit, and what a connect drives."""
from typing import NamedTuple

NUMBERS = ("UInt", "SInt")


class Ground(NamedTuple):
    """A type of one leaf, with the width that is written or fixed, or None."""
    kind: str
    width: object = None


class Field(NamedTuple):
    name: str
    is_flipped: bool
    type: object


class Bundle(NamedTuple):
    fields: tuple


class Vector(NamedTuple):
    element: object
    length: int


def printed(given):
    """A type as faults show it."""
    if isinstance(given, Vector):
        return f"{printed(given.element)}[{given.length}]"
    if isinstance(given, Bundle):
        return "{" + ", ".join(map(printed_field, given.fields)) + "}"
    return given.kind if given.width is None else f"{given.kind}<{given.width}>"


def printed_field(field):
    return f"{'flip ' if field.is_flipped else ''}{field.name}: {printed(field.type)}"


def mapped(given, change):
    """The type with each of its ground types changed."""
    if isinstance(given, Vector):
        return Vector(mapped(given.element, change), given.length)
    if isinstance(given, Bundle):
        return Bundle(tuple(field._replace(type=mapped(field.type, change))
                            for field in given.fields))
    return change(given)


def without_widths(given):
    return mapped(given, lambda ground: Ground(ground.kind))


def is_passive(given):
    """Whether no field is flipped, at any depth."""
    if isinstance(given, Vector):
        return is_passive(given.element)
    if isinstance(given, Bundle):
        return all(not field.is_flipped and is_passive(field.type) for field in given.fields)
    return True


def all_leaves(given, test):
    """Whether each leaf's type passes a test. A vector of length 0 has no leaf."""
    if isinstance(given, Vector):
        return given.length == 0 or all_leaves(given.element, test)
    if isinstance(given, Bundle):
        return all(all_leaves(field.type, test) for field in given.fields)
    return test(given)


def has_numbers(given):
    """Whether all leaves are UInt or SInt."""
    return all_leaves(given, lambda ground: ground.kind in NUMBERS)


def same_kind(one, other):
    return one.kind == other.kind


def fits(one, other):
    """Whether ground types meet in a connect, where a Reset takes part in more."""
    kinds = {one.kind, other.kind}
    return len(kinds) == 1 or "Reset" in kinds and bool(kinds & {"UInt", "AsyncReset"})


def alike(one, other, meets):
    """Whether two types are equivalent, where ground types have to meet."""
    if type(one) is not type(other):
        return False
    if isinstance(one, Vector):
        return one.length == other.length and alike(one.element, other.element, meets)
    if isinstance(one, Bundle):
        return [field[:2] for field in one.fields] == [field[:2] for field in other.fields] and all(
            alike(field.type, beside.type, meets)
            for field, beside in zip(one.fields, other.fields))
    return meets(one, other)


def common(one, other):
    """The fields that both bundles have, in the order of the first, each with the other's."""
    others = {field.name: field for field in other.fields}
    return [(field, others[field.name]) for field in one.fields if field.name in others]


def partly_alike(one, other):
    """Whether `<-` may connect two types."""
    if type(one) is not type(other):
        return False
    if isinstance(one, Vector):
        return partly_alike(one.element, other.element)
    if isinstance(one, Bundle):
        return all(field.is_flipped == beside.is_flipped and partly_alike(field.type, beside.type)
                   for field, beside in common(one, other))
    return fits(one, other)


def pairs(one, other):
    """What a connect of types that fit pairs, in order: the path of each leaf within both, and
    whether it is flipped. Of a vector's elements, which are alike, the first alone is named."""
    if isinstance(one, Vector):
        if one.length and other.length:
            for path, is_flipped in pairs(one.element, other.element):
                yield "[0]" + path, is_flipped
    elif isinstance(one, Bundle):
        for field, beside in common(one, other):
            for path, is_flipped in pairs(field.type, beside.type):
                yield f".{field.name}{path}", is_flipped != field.is_flipped
    else:
        yield "", False


def turned(flow, is_flipped):
    """The flow of a field of what has a flow."""
    return {"source": "sink", "sink": "source"}.get(flow, flow) if is_flipped else flow


# The fields of a memory's ports.

BIT = Ground("UInt", 1)


def memory_port(word, data, depth):
    """The type of a port of that kind."""
    mask = mapped(data, lambda ground: BIT)
    address = Ground("UInt", max(1, (depth - 1).bit_length()))
    fields = [("addr", address), ("en", BIT), ("clk", Ground("Clock"))]
    fields += {"reader": [("~data", data)], "writer": [("data", data), ("mask", mask)],
               "readwriter": [("~rdata", data), ("wmode", BIT), ("wdata", data), ("wmask", mask)],
               }[word]
    return Bundle(tuple(Field(name.lstrip("~"), name[0] == "~", given) for name, given in fields))
