"""A kit whose programs with checks are optimised, as the launchers build by one: launch/kit.sh says how it is made."""

import contextlib
import pathlib
import shutil
import subprocess
import tempfile

from cases import TOP


@contextlib.contextmanager
def optimised_rt():
    """The path of `rt` in such a kit, which is removed at the end of a `with`."""
    kit = pathlib.Path(shutil.which("rt")).resolve().parents[1]
    with tempfile.TemporaryDirectory(prefix="kit-") as folder:
        made = pathlib.Path(folder) / "kit"
        make = 'source "$1" && make_kit "$2" "$3"'
        subprocess.run(["bash", "-c", make, "bash", TOP / "launch/kit.sh", kit, made], check=True)
        yield str(made / "bin" / "rt")
