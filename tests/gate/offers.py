"""Checks of edits that offer no proof files.

Once a check has judged every function, it runs antt again for each that it refused, to print files from which to start
the proof: a fifth to two fifths of the time of a refused check. Nobody reads them of an edit. rattle has antt print
them in a folder beside the kept work, or else in a temporary folder. Where it can make neither, a note says so in their
place, and the check prints what it found against each function, and its last line, as ever."""
import os
import shutil

# How the name of the folder for offers ends; before that stands the name of the folder of kept work beside it.
ENDING = "-offers"


def copied_without(kept, to):
    """Copies kept work by links to a folder that has no room for offers. Returns the words before a check over it."""
    shutil.copytree(kept, to, copy_function=os.link, ignore=shutil.ignore_patterns(f"*{ENDING}*"))
    for name in os.listdir(to):
        made_file(f"{to}/{name}{ENDING}")
    return ["env", f"TMPDIR={made_file(f'{to}.no-folder')}"]


def made_file(path):
    """Makes a file, in which nobody can make a folder."""
    with open(path, "w", encoding="utf-8"):
        return path
