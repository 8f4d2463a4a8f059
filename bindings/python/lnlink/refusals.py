"""Refusals by number: docs/PROTOCOL.md, "Refusals", and the numbers of calls beside them."""

from __future__ import annotations

from .views import LostData

NAMES = {
    1: "Truncated",
    2: "NotMinimal",
    3: "TlvOrder",
    4: "TlvUnknownEven",
    5: "TlvLength",
    6: "UnknownEvenType",
    7: "TooLong",
    8: "FieldLength",
    9: "UnknownFeature",
    20: "UnknownChannel",
    21: "OutOfPlace",
    22: "BadId",
    23: "AmountBelowMinimum",
    24: "TooManyHtlcs",
    25: "InFlightOver",
    26: "CannotAfford",
    27: "ExpiryRange",
    28: "NoSuchHtlc",
    29: "PreimageWrong",
    30: "NotFunder",
    31: "SignatureWrong",
    32: "SecretWrong",
    33: "NothingToRevoke",
    34: "ReestablishNumber",
    35: "AddAfterShutdown",
    36: "FeeOutside",
    37: "PeerError",
    40: "NotReady",
    41: "SignatureOutstanding",
    42: "NothingToSign",
    43: "Shut",
    44: "PeerLimit",
    45: "UpdatesPending",
    46: "NumbersSpent",
    47: "Disconnected",
    48: "NotCommitted",
    49: "AlreadyRemoved",
    60: "Memory",
    61: "Store",
    62: "Halted",
    63: "Io",
    64: "BadScript",
    65: "GaveUp",
    70: "Damaged",
    71: "Version",
    80: "Asks",
    81: "Answer",
    82: "Short",
    83: "Handle",
}


class Refused(Exception):
    """A call was refused.

    number    the refusal's number
    name      its name
    rule      where the number is 44: the rule by which the peer would refuse, by its number; else None
    lost_data where the number is 34: whose data is lost; else None
    messages  from `Channel`: what is to be sent to the peer even so, as an `error` or a `warning`
    """

    def __init__(self, number: int, rule: int | None = None, lost_data: LostData | None = None):
        self.number = number
        self.name = NAMES.get(number, "Unknown")
        self.rule = rule
        self.lost_data = lost_data
        self.messages: list[bytes] = []
        by = "" if rule is None else f", by {rule} {NAMES.get(rule, 'Unknown')}"
        lost = f", {lost_data.name.lower()} data lost" if lost_data else ""
        super().__init__(f"{number} {self.name}{by}{lost}")


def check(answer: int) -> None:
    """Raises what a call of the library answers, unless that is 0."""
    if answer:
        number, detail = answer & 0xFF, answer >> 8
        raise Refused(number, detail if number == 44 else None, LostData(detail) if number == 34 else None)
