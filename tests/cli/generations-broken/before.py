import os
import pathlib
import shutil

tape = pathlib.Path("tape")
shutil.copytree(pathlib.Path(os.environ["TOP"], "examples/archive"), tape, dirs_exist_ok=True)
data = (tape / "dp.img").read_bytes()
label = data.index(b"<?xml")
index = data.index(b"<?xml", label + 1)
(tape / "dp.img").write_bytes(data[:index] + b"x" + data[index + 1:])
