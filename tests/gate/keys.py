"""What a verdict of the gate rests on, as a key: the sum of all of it.

That is the kit, the gate's own text, HANDLES, and of the crate and of every crate below it the line of crates.txt and each
file of its folder but its must-fail edits and documents; for an edit its own text too. A check sees of a crate below
only what it was built to, so such a key may change where a check would see no change, and never the other way round."""
import hashlib
import os

# What lies in a crate's folder, and no proof or test of it reads.
NOT_READ = ("out", "must-fail", "README.md")
HERE = os.path.dirname(os.path.realpath(__file__))


def sum_of(*parts):
    """The sum of a list of texts, which no other list has."""
    return hashlib.sha256(repr(parts).encode()).hexdigest()


def sum_of_file(path):
    with open(path, "rb") as it:
        return hashlib.file_digest(it, "sha256").hexdigest() if hasattr(hashlib, "file_digest") else (
            hashlib.sha256(it.read()).hexdigest())


def files_below(folder, left_out=()):
    """The paths of all files below a folder, without what lies right in it under these names."""
    for at, folders, names in os.walk(folder):
        kept = [it for it in sorted(folders) if at != folder or it not in left_out]
        folders[:] = [it for it in kept if it != "__pycache__"]
        yield from (f"{at}/{it}" for it in sorted(names) if at != folder or it not in left_out)


def sum_of_folder(folder, left_out=()):
    """The sum of the names and the texts of all files below a folder."""
    return sum_of(*[(os.path.relpath(it, folder), sum_of_file(it)) for it in files_below(folder, left_out)])


def sum_of_kit(kit):
    """The sum of what tells this kit from others: the lines that name it, and its programs."""
    named = [f"{kit}/{it}" for it in sorted(os.listdir(kit)) if it.startswith(("KIT-ID", "WHAT"))]
    return sum_of(*[(os.path.basename(it), sum_of_file(it)) for it in named], sum_of_folder(f"{kit}/bin"))


def lines_of(crates_txt):
    """The line of each crate."""
    with open(crates_txt, encoding="utf-8") as it:
        rows = [row.partition("#")[0].strip() for row in it]
    return {row.partition(":")[0].split()[0]: row for row in rows if row}


class Keys:
    """The keys of the verdicts on the crates of a repository."""

    def __init__(self, root, kit, crates, gate=HERE):
        self.root, self.kit, self.gate = root, kit, gate
        self.crates = {it.name: it for it in crates}

    def now(self):
        """The keys as the files are now: of each crate that of its proof."""
        lines = lines_of(f"{self.root}/crates.txt")
        common = (sum_of_kit(self.kit), sum_of_folder(self.gate), sum_of_file(f"{self.root}/HANDLES"))
        own = {name: (name, lines.get(name), sum_of_folder(it.folder, NOT_READ)) for name, it in self.crates.items()}
        return {name: sum_of(common, own[name], sorted(own[low.name] for low in it.below()))
                for name, it in self.crates.items()}

    def stamps(self, name):
        """The files that the verdicts on a crate rest on, each with its time, size and place on the disk as they are now."""
        folders = [it.folder for it in (self.crates[name], *self.crates[name].below())]
        paths = [file for it in folders for file in files_below(it, NOT_READ)]
        shared = [f"{self.root}/crates.txt", f"{self.root}/HANDLES", *files_below(self.gate), *files_below(f"{self.kit}/bin")]
        return [(it, stamp_of(it)) for it in (*shared, *paths)]


def edits_of(crate):
    """The files of the crate's must-fail edits."""
    return [it for it in files_below(f"{crate.folder}/must-fail") if it.endswith(".edit")]


def stamp_of(path):
    found = os.stat(path)
    return found.st_mtime_ns, found.st_size, found.st_ino


def of_tests(proof):
    return sum_of("tests", proof)


def of_edit(proof, edit):
    """The key of the verdict on an edit, a file, of a crate whose proof has that key."""
    return sum_of("edit", proof, os.path.basename(edit), sum_of_file(edit))
