"""A copy of the crates in which tests stand in their place, and what comes of them there, without a proof.

A file of tests ends in `.rt.in`, since a file of Rattle may stand in a crate alone. In the copy `NAME.rt.in` becomes
`src/NAME.rt` of a crate, and the crate's root names it as a module of tests.
"""

import concurrent.futures
import os
import pathlib
import re
import shutil
import subprocess
import tempfile

from cases import TOP, Difference, chosen, run_group

LIBRARIES = TOP / "tests" / "crates"
ENDING = ".rt.in"
# How long the tests of one crate may take, in seconds.
SECONDS = 3_600
TEST = re.compile(r"^ *#\[test\]\n(?: *#\[.*\]\n)* *fn (\w+)", re.M)
TOLD = re.compile(r"^test (\S+) \.\.\. (\w+)$")


class Copy:
    """The copy, in a folder that is removed at the end of a `with`."""

    def __enter__(self):
        self.folder = pathlib.Path(tempfile.mkdtemp(prefix="tests-"))
        for name in ("crates.txt", "HANDLES"):
            shutil.copy(TOP / name, self.folder)
        for crate in re.findall(r"^(\w+)[^#:\n]*:", (TOP / "crates.txt").read_text(), re.M):
            to = self.folder / "crates" / crate
            shutil.copytree(TOP / "crates" / crate, to, ignore=shutil.ignore_patterns("out"))
        return self

    def __exit__(self, *_):
        shutil.rmtree(self.folder)

    def source(self, crate):
        return self.folder / "crates" / crate / "src"

    def root(self, crate):
        return next(it for name in ("lib", "main") if (it := self.source(crate) / f"{name}.rt").exists())

    def add_library(self, crate):
        """Adds a crate that stands among the tests, with the crates that its file `uses` names."""
        with open(self.folder / "crates.txt", "a") as lines:
            lines.write(f"{crate}: {(LIBRARIES / crate / 'uses').read_text()}")
        self.source(crate).mkdir(parents=True)
        for file in LIBRARIES.glob(f"{crate}/*{ENDING}"):
            shutil.copy(file, self.source(crate) / file.name.removesuffix(".in"))

    def use(self, crate, *others):
        """Lets a crate use further ones."""
        lines = self.folder / "crates.txt"
        text, count = re.subn(rf"^{crate}:", f"{crate}: {' '.join(others)}", lines.read_text(), flags=re.M)
        assert count == 1, f"crates.txt has no line for {crate}"
        lines.write_text(text)

    def add_tests(self, crate, files, change=lambda text: text):
        """Adds files of tests to a crate, and returns the names of their tests."""
        names = []
        for file in files:
            module, text = file.name.removesuffix(ENDING), change(file.read_text())
            (self.source(crate) / f"{module}.rt").write_text(text)
            with open(self.root(crate), "a") as root:
                root.write(f"#[cfg(test)]\nmod {module};\n")
            names += tests_in(module, text)
        return names

    def add_inside(self, crate, file):
        """Adds a file of tests to the module that its folder names, whose private functions they call, and returns the
        names of the tests."""
        outer, inner, text = file.parent.name, file.name.removesuffix(ENDING), file.read_text()
        with open(self.source(crate) / f"{outer}.rt", "a") as module:
            module.write(f"#[cfg(test)]\nmod {inner} {{\n{text}}}\n")
        return tests_in(f"{outer}::{inner}", text)

    def run(self, crate, only=None, how=(), rt="rt"):
        """Runs the tests of a crate, or those with this word in their names, with further words for the kit. Returns
        what came of each by its name, and all that was said."""
        words = [rt, "try", "--test", "--seconds", str(SECONDS), *how, *(["--", only] if only else [])]
        ran = subprocess.run(words, cwd=self.source(crate).parent, stdin=subprocess.DEVNULL, capture_output=True)
        said = (ran.stdout + ran.stderr).decode(errors="backslashreplace")
        told, last = {}, None
        for line in said.split("\n"):
            if found := TOLD.match(line):
                last, told[found[1]] = found[1], [] if found[2] == "ok" else [line]
            elif line.startswith("test "):
                last = None
            elif last and told[last]:
                told[last].append(line)
        return told, said


def tests_in(module, text):
    """Returns the names of the tests in a file, as they are told."""
    return [f"{module}::{name}" for name in TEST.findall(text)]


def run_tests(copy, tests, words, rt="rt"):
    """Runs a group whose cases are tests of crates. `tests` has the names of its tests for each crate; where there is
    more than one crate, the names of cases begin with theirs. Returns the status."""
    named = {f"{crate}/{name}" if len(tests) > 1 else name: (crate, name) for crate in tests for name in tests[crate]}
    wanted = [named[it] for it in chosen(named, words)]
    only = wanted[0][1] if len(wanted) == 1 else None
    with concurrent.futures.ThreadPoolExecutor(os.cpu_count()) as pool:
        runs = {crate: pool.submit(copy.run, crate, only, (), rt) for crate in dict.fromkeys(it for it, _ in wanted)}

        def came_of(crate, name):
            told, said = runs[crate].result()
            if name not in told:
                return [Difference(name, "ok", f"no word of it in what {crate} said:\n{said}")]
            return ["\n".join(told[name])] if told[name] else []

        return run_group({case: lambda it=it: came_of(*it) for case, it in named.items()}, words)
