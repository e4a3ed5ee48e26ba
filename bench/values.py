#!/usr/bin/env python3
"""The most memory that a sync of many attributes takes, and how long it takes.

usage: values.py PROGRAM [MEBIBYTES]

Formats a folder and serves one script on it: files with attributes of 65,536 bytes each, up to 63 MiB of them, and one
sync behind all. Once the values are a text, and once they are none, so that the index has them in base64. Then a run
that only asks for one of them mounts the volume. PROGRAM is the program's binary.
"""
import os
import subprocess
import sys
import tempfile
import time

TIME = "2024-01-02T03:04:05.000000000Z"
UUID = "30a91a08-daae-48d1-ae75-69804e61d2ea"
VALUE, KEYS, CALLS = 65_536, 256, 1_024


def script(mebibytes, byte):
    count = mebibytes * 1_048_576 // VALUE
    files = -(-count // KEYS)
    if count + files + 1 > CALLS:
        sys.exit(f"one session makes at most {CALLS} calls")
    lines = [f"1 create /f{k}" for k in range(files)]
    lines += [f"1 setx /f{k // KEYS} key{k % KEYS} fill:{byte}:{VALUE}" for k in range(count)]
    return "".join(f"{it}\n" for it in [*lines, "1 sync"])


def run(words, text):
    """Seconds by the clock and of the processor, mebibytes, and the last lines of what one run prints."""
    begun = time.monotonic()
    with tempfile.TemporaryFile() as source, tempfile.TemporaryFile() as sink:
        source.write(text.encode())
        source.seek(0)
        process = subprocess.Popen(words, stdin=source, stdout=sink)
        _, status, used = os.wait4(process.pid, 0)
        process.returncode = os.waitstatus_to_exitcode(status)
        took = time.monotonic() - begun
        sink.seek(0)
        lines = sink.read().decode().splitlines()
    if process.returncode:
        sys.exit(f"{words[1]} ended with {process.returncode}: {lines[-1:]}")
    return took, used.ru_utime + used.ru_stime, used.ru_maxrss / 1024, lines[-2:]


def main():
    program, mebibytes = os.path.abspath(sys.argv[1]), int(sys.argv[2]) if len(sys.argv) > 2 else 63
    for name, byte in (("text", "61"), ("base64", "ff")):
        with tempfile.TemporaryDirectory() as folder:
            run([program, "format", folder, "TAPE01", UUID, "--at", TIME], "")
            for what, text in (("sync", script(mebibytes, byte)), ("mount", "1 stat /\n")):
                clock, spent, memory, last = run([program, "serve", folder, "--at", TIME], text)
                print(f"{name:7} {what:6} clock {clock:5.2f} s   processor {spent:5.2f} s   memory {memory:5.0f} MiB   "
                      f"{' / '.join(last)[:60]}")


if __name__ == "__main__":
    main()
