"""Each crate's sources are hashed once for each look at them.

The kit tells by a hash of a crate's sources and of those of all crates below it whether a library is still that of its
sources. It hashes a crate again for each way that leads to it from above, which is thousands of times for the highest
crates here: a minute each time that one of them is looked at."""
import threading


def install(crate_class):
    """Has the class keep, while one hash is made, those that it is made of."""
    local = threading.local()
    of_kit = crate_class.stamp

    def stamp(crate):
        found = getattr(local, "found", None)
        if found is None:
            local.found = {}
            try:
                return stamp(crate)
            finally:
                del local.found
        if crate.folder not in found:
            found[crate.folder] = of_kit(crate)
        return found[crate.folder]

    crate_class.stamp = stamp
