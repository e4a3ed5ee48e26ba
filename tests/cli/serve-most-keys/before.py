"""A volume whose root has 255 keys, its directory 256 and its file 257."""

import os
import sys

sys.path.append(os.path.join(os.environ["TOP"], "tests", "cli", "hand_made"))
from cartridge import label, vol1, write  # noqa: E402
from facts import keys, plain_index  # noqa: E402

index = plain_index("b5", None, 1, "", [keys(255), keys(256), keys(257)])
write([vol1("TAPE01"), "mark", label("ab", 0), "mark"],
      [vol1("TAPE01"), "mark", label("ab", 1), "mark", "mark", index, "mark"])
