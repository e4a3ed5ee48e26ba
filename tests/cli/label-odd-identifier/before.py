import os
import sys

sys.path.append(os.path.join(os.environ["TOP"], "tests", "cli", "hand_made"))
from cartridge import label, vol1, write  # noqa: E402

write(*([vol1("A B%01"), "mark", label("ab", nth, "true"), "mark"] for nth in (0, 1)))
