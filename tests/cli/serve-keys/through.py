"""Behind the output: the attributes of each node in each index of the data partition, as they stand there."""

import os
import re
import sys

sys.path.append(os.path.join(os.environ["TOP"], "tests", "cli", "hand_made"))
from cartridge import indexes  # noqa: E402

told = sys.stdin.read()
for position, document in indexes("dp"):
    for found in re.findall("<extendedattributes>.*?</extendedattributes>", document):
        told += f"dp {position} {found}\n"
sys.stdout.buffer.write(told.encode())
