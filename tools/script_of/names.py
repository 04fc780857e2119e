"""The names of fields: as files have them, and as the script does."""
import re

from . import limits
from .faults import Wrong

TAKEN = re.compile(r"[A-Za-z_][A-Za-z0-9_]*")


class Names:
    def __init__(self, renames):
        self.renames = renames
        # For each field of the script the name in the files; what was met and passed over.
        self.originals, self.passed_over = {}, {}

    def field(self, original, at):
        """The field that a name stands for, or None where it is passed over, as `_version_` is."""
        name = self.renames.get(original, original)
        if self.originals.get(name) == original:
            return name
        if len(name) > 1 and name.startswith("_") and name.endswith("_"):
            self.passed_over[name] = True
            return None
        if not TAKEN.fullmatch(name) or len(name) > limits.NAME_BYTES or name == "_":
            raise Wrong(at, f"no field can be named {name!r}: a name has 1 to {limits.NAME_BYTES} letters of ASCII, digits and "
                            f"_, and no digit in front; --rename {quoted(original)}=NEW gives it another")
        if name in self.originals:
            raise Wrong(at, f"{original!r} and {self.originals[name]!r} would both be the field {name}")
        self.originals[name] = original
        if len(self.originals.keys() | {"id"}) > limits.FIELDS:
            raise Wrong(at, f"more than {limits.FIELDS} fields, id among them")
        return name

    def unmet(self):
        """What was to be renamed and stands in no file."""
        return [name for name in self.renames if name not in self.originals.values()]


def quoted(name):
    return name if re.fullmatch(r"[\w.-]+", name) else "'" + name.replace("'", "'\\''") + "'"
