"""A volume without notes whose data partition goes on behind its last index, which tells that it is sealed."""

import os
import sys

sys.path.append(os.path.join(os.environ["TOP"], "tests", "cli", "hand_made"))
from cartridge import label, vol1, write  # noqa: E402
from facts import attributes, plain_index  # noqa: E402

elements = ["", attributes([("k", "<value>v</value>")]), ""]
first, second = (plain_index(*it, elements, ("false", "true", "true"))
                 for it in (("b5", None, 1, "unlocked"), ("b8", "b5", 2, "permlocked")))
write([vol1("TAPE01"), "mark", label("ab", 0), "mark"],
      [vol1("TAPE01"), "mark", label("ab", 1), "mark", "mark", first, "mark", "mark", second, "mark", "torn"])
