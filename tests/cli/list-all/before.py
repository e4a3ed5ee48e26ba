import os
import sys

sys.path.append(os.path.join(os.environ["TOP"], "tests", "cli", "hand_made"))
from attributed import index  # noqa: E402
from cartridge import label, vol1, write  # noqa: E402

# The newest index has another lock state and other read-only nodes than the one before it, which the index partition
# has too.
front, older = [vol1("TAPE01"), "mark"], {"state": "permlocked", "readonly": {1}}
write([*front, label("ab", 0), "mark", "mark", index("a5", "b6", 1, ["b4"], **older), "mark"],
      [*front, label("ab", 1), "mark", b"hello", "mark", index("b6", None, 1, ["b4"], **older), "mark",
       b"world", "mark", index("b10", "b6", 2, ["b4", "b8"], "locked", {2, 3, 4}), "mark"])
for state in (None, "unlocked", "permlocked"):
    write([*front, label("ab", 0), "mark", "mark", index("a5", "b5", 1, [], state), "mark"],
          [*front, label("ab", 1), "mark", "mark", index("b5", None, 1, [], state), "mark"], state or "absent")
