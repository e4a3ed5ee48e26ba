"""Behind the output: each node's name in the last index, and the days of its creation, change, modify, access and
backup times."""

import os
import re
import sys

sys.path.append(os.path.join(os.environ["TOP"], "tests", "cli", "hand_made"))
from cartridge import indexes, inside  # noqa: E402

print(sys.stdin.read(), end="")
_, last = indexes("dp")[-1]
for name, times in re.findall("<name>([^<]*)</name>(?:<length>0</length>)?(<creationtime>.*?)<readonly>", last):
    kinds = ("creationtime", "changetime", "modifytime", "accesstime", "backuptime")
    print(f"/{name}", *(inside(times, kind)[0][8:10] for kind in kinds))
