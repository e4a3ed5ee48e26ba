import os
import sys

sys.path.append(os.path.join(os.environ["TOP"], "tests", "cli", "hand_made"))
from attributed import tell  # noqa: E402

tell()
