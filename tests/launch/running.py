"""What the launchers say to who asks, and how they run a program that is there."""

import os
import re
import shlex
import signal
import time

from cases import compare
from clones import (FIRST_LOG, FIRST_SCRIPT, await_program, clone, environment, fresh_folder, ready, run,
                    run_at_terminal, volume, with_index_tool, without_rt)

COMMANDS = {
    "ltfs_server": ["plain", "label", "format", "list", "generations", "view", "serve", "make"],
    "index_tool": ["check", "canon"],
    "ltfs_put": [],
    "ltfs_get": [],
}


def help_words(name):
    """Each way to ask for help, by the text that it gives."""
    yield "", [["--help"], ["-h"], ["help"]]
    for it in COMMANDS[name]:
        yield it, [["help", it], [it, "--help"]]


def help_in_fresh_clone():
    where, env, found = clone("help"), environment(PATH=without_rt()), []
    for name in COMMANDS:
        for _, ways in help_words(name):
            texts = []
            for words in ways:
                ran = run([f"./{name}", *words], where, env=env)
                texts.append(ran.out)
                of = f"{name} {words}"
                found += compare(f"status of {of}", 0, ran.status) + compare(f"standard error of {of}", b"", ran.err)
                found += compare(f"whether {of} takes less than 5 seconds", True, ran.seconds < 5)
            found += compare(f"texts of {name} {ways}", 1, len(set(texts)))
            wide = [it for it in texts[0].decode().splitlines() if len(it) > 100]
            found += compare(f"lines of {name} {ways[0]} over 100 columns", [], wide)
            lacks = [it for it in ("usage: ", "status: ") if it not in texts[0].decode()]
            found += compare(f"what {name} {ways[0]} lacks", [], lacks)
    found += compare("what a run without words prints", run(["./ltfs_server", "help"], where, env=env).out,
                     run(["./ltfs_server"], where, env=env).out)
    ran = run(["./ltfs_server", "help", "fly"], where, env=env)
    told = "ltfs_server: no command is named 'fly'; './ltfs_server help' tells which there are"
    found += compare("status of help of no command", 1, ran.status)
    return found + compare("standard error of help of no command", [told], ran.lines())


def example_of(text):
    """The commands of a help's example, each with the lines that it prints."""
    steps = []
    for line in text.split("\nexample:\n")[-1].splitlines() if "\nexample:\n" in text else []:
        if line.startswith("  $ "):
            steps.append((line[4:], []))
        elif steps and line.startswith("  "):
            steps[-1][1].append(line[2:])
    return steps


def help_examples():
    """Each example is run in a folder with links to the programs."""
    where, found = ready(), []
    for name in COMMANDS:
        for command, ways in help_words(name):
            here = fresh_folder()
            for it in [*COMMANDS, "examples"]:
                (here / it).symlink_to(where / it)
            steps = example_of(run([where / name, *ways[0]], here).out.decode())
            if command or not COMMANDS[name]:
                found += compare(f"whether {name} {ways[0]} has an example", True, bool(steps))
            for line, printed in steps:
                ran = run(["bash", "-c", line], here)
                found += compare(f"status of {line}", 0, ran.status)
                found += compare(f"output of {line}", printed, ran.out.decode().splitlines())
    return found


def version():
    ran = run(["./ltfs_server", "--version"], clone("version"), env=environment(PATH=without_rt()))
    told = rb"ltfs_server 1\.0\.0, for LTFS 2\.4, (a copy without its history|commit \w+ of [-\d]+), not built\n"
    return compare("status", 0, ran.status) + compare(f"whether it is {told}", True, bool(re.fullmatch(told, ran.out)))


def examples():
    """Each script of examples/ has its log and its status."""
    where, found = ready(), []
    for script in sorted((where / "examples").glob("*.script")):
        words, status = script.with_suffix(".words"), script.with_suffix(".status")
        words = shlex.split(words.read_text()) if words.exists() else ["plain"]
        ran = run(["./ltfs_server", *words], where, script.read_bytes())
        found += compare(f"output of {script.name}", script.with_suffix(".log").read_bytes(), ran.out)
        found += compare(f"status of {script.name}", int(status.read_text()) if status.exists() else 0, ran.status)
    return found


def statuses(where):
    """A run for each status that can be brought about: its words, its input and its output, if they are no pipes."""
    empty, text = fresh_folder(), fresh_folder() / "script"
    text.write_bytes(b"1 fly /\n")
    return [
        (0, ["label", "examples/labels"], {}),
        (1, ["fly"], {}),
        (2, ["plain"], {"stdin": text.open("rb")}),
        (3, ["label", empty], {}),
        (4, ["label", empty / "missing"], {}),
        (5, ["plain"], {"stdin": os.open(empty, os.O_RDONLY)}),
        (6, ["label", "examples/labels"], {"stdout": open("/dev/full", "wb")}),
    ]


def sentences():
    """At a terminal a sentence tells a status other than 0, and nobody else sees more than before."""
    where, found = ready(), []
    for status, words, more in statuses(where):
        words = ["./ltfs_server", *words]
        told = run_at_terminal(words, where, **more)
        given = more.get("stdin", b"")
        if given and hasattr(given, "seek"):
            given.seek(0)
        plain = run(words, where, given, **{name: it for name, it in more.items() if name == "stdout"})
        of = f" of status {status}"
        found += compare("status" + of, [status, status], [told.status, plain.status])
        found += compare("output" + of, plain.out, told.out)
        behind = [it for it in told.lines() if it not in plain.lines()]
        begins = f"ltfs_server: status {status}: "
        found += compare("sentences" + of, bool(status) + 0, sum(it.startswith(begins) for it in behind))
        found += compare("other lines" + of, [], [it for it in behind if not it.startswith("ltfs_server: ")])
        if behind:
            found += compare("how the first begins", begins, behind[0][:len(begins)])
    return found


def ended_at_terminal():
    """A program that waits for its input at a terminal ends with the launcher that is told to."""
    found = []
    for number in (signal.SIGTERM, signal.SIGINT):
        def tell(process, number=number):
            await_program(process)
            time.sleep(1)
            os.killpg(process.pid, number) if number == signal.SIGINT else process.send_signal(number)
            process.wait(timeout=30)

        ran = run_at_terminal(["./ltfs_server", "plain"], ready(), meanwhile=tell, start_new_session=True)
        found += compare(f"status after {number}", 128 + number, ran.status)
        told = f"ltfs_server: a signal ended it (status {128 + number})"
        found += compare(f"sentence after {number}", told, ran.lines()[-1][:len(told)])
    return found


def folders():
    """The folder of a cartridge may be relative, missing, a link, begin with a hyphen, or have a space."""
    where, here, found = ready(), fresh_folder(), []
    (here / "link").symlink_to(volume(where))
    (here / "--help").symlink_to(here / "link")
    (here / "a b").mkdir()
    (here / "server").symlink_to(where / "ltfs_server")
    given = (where / "examples/served.script").read_bytes()
    empty = "d 1 /\ngeneration 1 b 5\n"
    for status, text, words in (
        (0, empty, ["list", "link"]),
        (0, empty, ["list", "./link/"]),
        (4, "drive 0 1\n", ["list", "missing"]),
        (4, "drive 0 1\n", ["format", "missing", "TAPE01", "30a91a08-daae-48d1-ae75-69804e61d2ea"]),
        (4, "drive 0 1\n", ["list", "-x"]),
        (0, empty, ["list", "./--help"]),
        (0, "formatted 30a91a08-daae-48d1-ae75-69804e61d2ea\n",
         ["format", "a b", "TAPE01", "30a91a08-daae-48d1-ae75-69804e61d2ea"]),
        (0, "0 1.0 ok\n1 1.1 ok\n2 1.2 synced\n3 1.3 bytes 5 68656c6c6f\nclosed 2 6 11\n", ["serve", "a b"]),
        (1, "words\n", ["list"]),
    ):
        ran = run(["./server", *words], here, given)
        found += compare(f"output of {words}", text, ran.out.decode())
        found += compare(f"status of {words}", status, ran.status)
    return found + compare("whether a folder was made", False, (here / "missing").exists())


def environment_is_no_matter():
    """Settings of a person's own for the checks, or for the loader, change nothing."""
    env = environment(ASAN_OPTIONS="help=1:exitcode=3", LD_PRELOAD="/nowhere.so", LANG="C")
    ran = run(["./ltfs_server", "plain"], ready(), FIRST_SCRIPT, env)
    return compare("status", 0, ran.status) + compare("output", FIRST_LOG, ran.out)


def limited_addresses():
    """The checks want more addresses than a limit leaves."""
    where = with_index_tool("limited addresses")
    ran = run(["bash", "-c", "ulimit -v 4000000; ./index_tool check"], where)
    told = ["index_tool: the checked program can't run where 'ulimit -v' sets a limit"]
    return compare("status", 125, ran.status) + compare("standard error", told, ran.lines())


def input_is_left():
    """Standard input that the program doesn't read stays as it is for who comes next."""
    line = "{ ./ltfs_server label examples/labels; cat; } 2> /dev/null | tail -n 1"
    ran = run(["bash", "-c", line], ready(), b"the rest\n")
    return compare("output", b"the rest\n", ran.out)


CASES = {
    "help_in_fresh_clone": help_in_fresh_clone,
    "help_examples": help_examples,
    "version": version,
    "examples": examples,
    "sentences": sentences,
    "ended_at_terminal": ended_at_terminal,
    "folders": folders,
    "environment_is_no_matter": environment_is_no_matter,
    "limited_addresses": limited_addresses,
    "input_is_left": input_is_left,
}
