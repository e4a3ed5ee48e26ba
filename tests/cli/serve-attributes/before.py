import os
import sys

sys.path.append(os.path.join(os.environ["TOP"], "tests", "cli", "hand_made"))
from attributed import index  # noqa: E402
from cartridge import label, vol1, write  # noqa: E402

front = [vol1("TAPE01"), "mark"]
write([*front, label("ab", 0), "mark", "mark", index("a5", "b6", 1, ["b4"]), "mark"],
      [*front, label("ab", 1), "mark", b"hello", "mark", index("b6", None, 1, ["b4"]), "mark",
       b"world", "mark", index("b10", "b6", 2, ["b4", "b8"]), "mark"])
