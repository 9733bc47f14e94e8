"""What a check said against a crate: which functions it refused, and by what."""
import re
from dataclasses import dataclass

VERDICT = re.compile(r"fn (\S+): (?:not proved|no proof)(.*)")
# Not for a reason of its own: it calls a function that is refused.
FOLLOWS = re.compile(r": it calls [^;]*, which (is|are) not proved")
# A clause, an invariant, a bound or a measure that the code does not meet, at its place in the source.
AT_CODE = re.compile(r"note: (src/\S+:\d+:\d+: it is not proved that .*)")
IN_PROOFS = re.compile(r"(?:\./)?proofs/(\S+)/\w+\.antt:\d+:\d+: error: (.*)")
ITEM = re.compile(r"(?:fn|struct|enum|impl|trait|const|static) \S+: ")


@dataclass
class Refusal:
    """A function that was refused for a reason of its own."""

    name: str
    # What does not hold at the code, mostly a clause.
    at_code: list
    # What is said of a written proof: it no longer fits, which shows less.
    in_proofs: list


def refusals(said, crate):
    """Returns what a check of the crate refused, from what it printed. The lines at the code stand before the
    verdict on their function, and the errors in proofs/ before all verdicts."""
    found, at_code, in_proofs = [], [], {}
    for line in said.split("\n"):
        note, error, verdict = AT_CODE.match(line), IN_PROOFS.match(line), VERDICT.match(line)
        if note:
            at_code.append(note[1])
        elif error:
            in_proofs.setdefault(error[1], []).append(f"proofs/{error[1]}: {error[2]}")
        elif verdict and not FOLLOWS.match(verdict[2]):
            name = verdict[1].removeprefix(f"{crate}::")
            found.append(Refusal(name, at_code, in_proofs.get(name.replace("::", "/"), [])))
        if ITEM.match(line):
            at_code = []
    return found
