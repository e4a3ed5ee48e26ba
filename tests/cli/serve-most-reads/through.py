"""The lines of the reads come in any order: what they answer, each answer once, and then which reads were answered."""
import sys

lines = sys.stdin.read().splitlines()
print(*lines[:19], sep="\n")
reads = [line.split(" ", 2) for line in lines[19:83]]
print(*sorted({answer for _, _, answer in reads}), sep="\n")
print(*sorted((call for _, call, _ in reads), key=lambda call: [int(word) for word in call.split(".")]), sep="\n")
