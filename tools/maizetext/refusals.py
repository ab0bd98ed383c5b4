"""Refusals of jobs and plans: number, place and the rule in words."""

RULES = {
    1: "the job has more than 262,144 bytes",
    2: "a group of bits is not whole",
    3: "the edition is not 1",
    4: "the grid has more than 16,384 vertices",
    5: "a layer line's rule is broken",
    6: "an obstacle lies outside the grid, whole or in part",
    8: "a pin is outside the grid or on an obstacle",
    9: "a pin is on the same vertex as an earlier pin",
    10: "a box has low above high, or is outside the grid",
    11: "a bit after the last field is set, or more bytes follow",
    12: "the map is short",
    13: "the work slice is short",
    14: "the plan slice is short",
    15: "a flag, start with count, move or cost is not whole, or what follows the last record is not its zero fill",
    16: "a start is not on the net's tree",
    17: "a move is not legal, enters an unjoined pin early, or is the last and enters none; or there is no move",
    18: "a recorded cost differs from the cost of the moves",
    19: "the report has fewer than 48 numbers (at 8), or a count would pass 2^64 - 1 (at its layer)",
}


def rule_in_words(number: int) -> str:
    """The rule that a refusal's number stands for."""
    return RULES.get(number, "a refusal that this tool does not know")


class Refused(Exception):
    """A job or plan that breaks a rule, with the rule's place in bits and what was met there."""

    def __init__(self, number: int, place: int, met: str = "") -> None:
        super().__init__(number, place)
        self.number = number
        self.place = place
        self.met = met

    def rule(self) -> str:
        """The rule in words, and what broke it where that is known."""
        return rule_in_words(self.number) + (f": {self.met}" if self.met else "")

    def __str__(self) -> str:
        return f"refused {self.number} at {self.place}: {self.rule()}"
