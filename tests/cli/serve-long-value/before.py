"""A volume whose file has a value of 65,537 bytes, as text."""

import os
import sys

sys.path.append(os.path.join(os.environ["TOP"], "tests", "cli", "hand_made"))
from cartridge import label, vol1, write  # noqa: E402
from facts import attributes, plain_index  # noqa: E402

index = plain_index("b5", None, 1, "", ["", "", attributes([("long", f"<value>{'a' * 65_536}b</value>")])])
write([vol1("TAPE01"), "mark", label("ab", 0), "mark"],
      [vol1("TAPE01"), "mark", label("ab", 1), "mark", "mark", index, "mark"])
