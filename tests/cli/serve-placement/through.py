"""Behind the output: of the last index, the policy and whether it may be changed, and each file's name, length and the
partition of its extent."""

import os
import re
import sys

sys.path.append(os.path.join(os.environ["TOP"], "tests", "cli", "hand_made"))
from cartridge import indexes, inside  # noqa: E402

print(sys.stdin.read(), end="")
_, last = indexes("dp")[-1]
print(*inside(last, "allowpolicyupdate"), *inside(last, "dataplacementpolicy"))
for name, file in re.findall(r"<file><fileuid>\d+</fileuid><name>(.*?)</name>(.*?)</file>", last):
    print(name, *inside(file, "length"), *inside(file, "partition"))
