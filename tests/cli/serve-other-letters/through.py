"""Behind the output: of each index, its position, its facts, and where each file lies."""

import os
import re
import sys

sys.path.append(os.path.join(os.environ["TOP"], "tests", "cli", "hand_made"))
from cartridge import indexes, inside  # noqa: E402


def spots(text):
    return " ".join(f"{letter}{block}" for letter, block in
                    re.findall(r"<partition>(.)</partition><startblock>(\d+)</startblock>", text))


print(sys.stdin.read(), end="")
for part in ("dp", "ip"):
    for position, text in indexes(part):
        print(part, position, "generation", *inside(text, "generationnumber"), "at", spots(*inside(text, "location")),
              "back", *map(spots, inside(text, "previousgenerationlocation")))
        print(*inside(text, "comment"), *inside(text, "allowpolicyupdate"), *inside(text, "dataplacementpolicy"))
        for name, file in re.findall(r"<name>([^<]*)</name>(<length>.*?)</file>", text):
            print(name, *inside(file, "length"), "at", spots(file))
