"""What the second readings of resets and of widths say together of a text whose names and types are
right: the walks of E18 that may be told, or else the line of the first fault E19 to E22."""
from inference_forms import Circuit
from reset_rules import Resets
from width_rules import Widths


class Inferred:
    """`line` is that of a fault of widths; of resets it is None, as several may be told. `shortest`
    tells whether a walk has to be a shortest one."""

    def __init__(self, text, shortest=False):
        self.circuit, self.shortest = Circuit(text), shortest
        self.resets = Resets(self.circuit)
        self.line = None if self.resets.has_fault() else Widths(self.circuit).fault

    def code(self):
        """The code of the fault, or None."""
        if self.resets.has_fault():
            return "E18"
        return self.line and self.line[:3]

    def takes(self, says):
        """Whether this may be told, where there is a fault."""
        if self.resets.has_fault():
            return self.resets.is_shown(says, self.shortest)
        return says == self.line

    def __str__(self):
        if self.resets.has_fault():
            return "E18 of a shortest walk" if self.shortest else "E18 of a walk"
        return self.line or "no fault of resets or widths"
