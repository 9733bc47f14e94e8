"""Which function of the source a must-fail edit changes."""
import re
from dataclasses import dataclass

FUNCTION = re.compile(r"( *)(?:pub(?:\(\w+\))? )?(?:const |unsafe )*fn (\w+)")
# An impl block: the trait, if any, with its first argument, and the type.
IMPL = re.compile(r"( *)impl\b(?:<.*?>)? (?:(?:\w+::)*(\w+)(?:<(?:\w+::)*(\w+).*>)? for )?(?:\w+::)*(\w+)")


@dataclass(frozen=True)
class Function:
    """A function of the source: its module, the type and the trait that it is a method of, if any, and its name. A trait
    has its first argument behind it, as `FromNoMemory`."""

    module: tuple
    type: str
    trait: str
    name: str

    def end(self):
        """The end of rattle's name for it, as `--only` takes it: that of a method begins with its type and its trait."""
        return f"{self.type}{self.trait}::{self.name}" if self.type else "::".join((*self.module, self.name))

    def is_called(self, name):
        """Whether rattle's name, without the crate's, is that of this function or of a closure in it."""
        parts = [it for it in name.split("::") if it != "fn"]
        if self.type:
            # A method is named by its type, which may be in another module; an impl of a trait by a name that begins so.
            own = zip(parts, parts[1:])
            return any(first.startswith(self.type) and second.split("+")[0] == self.name for first, second in own)
        return tuple(parts[: len(self.module) + 1]) == (*self.module, self.name)


def changed_function(edit, folder):
    """Returns the one function whose body holds all that the edit changes, or None."""
    found = {function_at(f"{folder}/{path}", path, old) for path, old in places(edit)}
    return found.pop() if len(found) == 1 else None


def places(edit):
    path = ""
    with open(edit, encoding="utf-8") as it:
        for line in it.read().split("\n"):
            if line.startswith("file: "):
                path = line[len("file: ") :].strip()
            elif line.startswith("old: "):
                yield path, line[len("old: ") :]


def function_at(file, path, text):
    """Returns the function whose body has this text, or None. The files are in the layout of rt fmt."""
    if not path.startswith("src/"):
        return None
    with open(file, encoding="utf-8") as it:
        rows = it.read().split("\n")
    at = next((place for place, row in enumerate(rows) if text in row), None)
    if at is None:
        return None
    head = above(rows, at, indent_of(rows[at]), FUNCTION)
    if head is None or not has_body_before(rows, head, at):
        return None
    found = FUNCTION.match(rows[head])
    outer = above(rows, head, len(found[1]), IMPL)
    module = tuple(re.sub(r"^src/|(/mod|(^|/)lib|(^|/)main)?\.rt$", "", path).split("/"))
    trait, argument, type = IMPL.match(whole_head(rows, outer)).group(2, 3, 4) if outer is not None else ("", "", "")
    return Function(tuple(it for it in module if it), type, (trait or "") + (argument or ""), found[2])


def whole_head(rows, at):
    """Returns the head of the impl block that begins at this row, in one row, up to its brace."""
    end = next(place for place in range(at, len(rows)) if rows[place].endswith("{"))
    first, *others = rows[at : end + 1]
    return " ".join([first, *(it.strip() for it in others)]).replace("< ", "<")


def indent_of(row):
    return len(row) - len(row.lstrip())


def above(rows, at, indent, head):
    """Returns the nearest row above that begins such an item and is less indented."""
    for place in range(at, -1, -1):
        found = head.match(rows[place])
        if found and len(found[1]) < indent:
            return place
    return None


def has_body_before(rows, head, at):
    """Whether the body of the function that begins at this row has begun before row `at`."""
    indent = " " * indent_of(rows[head])
    return any(row == indent + "{" or row.endswith(" {") for row in rows[head:at])
