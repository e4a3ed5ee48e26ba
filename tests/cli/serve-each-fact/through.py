import os
import sys

sys.path.append(os.path.join(os.environ["TOP"], "tests", "cli", "hand_made"))
from facts import tell_locks  # noqa: E402

tell_locks()
