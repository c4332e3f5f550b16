"""Define the refusals of the server. Each has a name, which scripts compare, and a sentence for people.

    raise Refused("OwnSite", "site 2 cannot exclude itself: another site must do it")

Refusals by the program have the names in docs/FORMAT.md. live/PROTOCOL.md says what the others mean.
"""
from __future__ import annotations

NAMES = frozenset({
    "AllSeatsTaken", "Busy", "Failed", "NameTaken", "NoEffect", "NoName", "NoPreview", "NoProgram", "NoSuchChange",
    "NoSuchSeat", "NoSuchVariant", "NothingToPut", "NothingToUndo", "NotWritten", "NotYourReplica", "OneDay", "OtherVersion", "OwnSite",
    "PrivateChanges", "SeatConnected", "SiteExcluded", "Stopped", "TooFarAhead", "TooLong", "TooManyObjects", "TooManyVariants",
    "UnknownKey"})
OF_THE_FORMAT = frozenset({
    "line too long", "not json", "not a command", "unknown form", "NoReplica", "NoMessage", "NameTaken", "NoObject", "Step",
    "ValueOutOfRange", "Count", "Insider", "CountsSpent", "Horizon", "NoDetector", "Range", "NotSimulated"})


class Refused(Exception):
    """A refusal. `text` is its name, `why` a sentence, and `more` has further fields of the reply."""

    def __init__(self, text: str, why: str, **more: object) -> None:
        if text not in NAMES and text not in OF_THE_FORMAT:
            raise ValueError(f"no refusal is named {text}")
        super().__init__(text)
        self.text, self.why, self.more = text, why, more

    def reply(self) -> dict[str, object]:
        """Return the reply to a tab."""
        return {"refused": self.text, "why": self.why, **self.more}


def not_a_command(why: str) -> Refused:
    """Return the refusal of a malformed command."""
    return Refused("not a command", why)


def program_crashed() -> Refused:
    """Return the refusal of a question on which a program crashed, and the one that replaced it, too."""
    return Refused("NoProgram", "the program crashed on this twice; the server's log says why")
