"""Prints what is made from the texts of launch/help: completions for bash, or a page for man.

usage: pages.py --completions|--man NAME
"""

import pathlib
import re
import sys

HELP = pathlib.Path(__file__).resolve().parent / "help"
COMPLETIONS = """\
# Completions of {name} for bash: source <({name} --completions)
_{name}() {{
  local word=${{COMP_WORDS[COMP_CWORD]}} options=
  case ${{COMP_WORDS[1]-}} in
{cases}
  esac
  if [ "$COMP_CWORD" -eq 1 ]; then
    mapfile -t COMPREPLY < <(compgen -W '{first}' -- "$word")
  elif [ "${{COMP_WORDS[1]}}" = help ]; then
    mapfile -t COMPREPLY < <(compgen -W '{commands}' -- "$word")
  elif [[ $word = -* ]]; then
    mapfile -t COMPREPLY < <(compgen -W "$options" -- "$word")
  else
    mapfile -t COMPREPLY < <(compgen -f -- "$word")
  fi
}}
complete -o filenames -F _{name} {name}
"""


def help_text(name, command=""):
    return (HELP / f"{name}{command and '-' + command}.txt").read_text(encoding="utf-8")


def commands_of(name):
    """The commands, in the order of the help of all."""
    named = re.findall(r"^  ([a-z]+)\b", help_text(name), re.MULTILINE)
    return [it for it in dict.fromkeys(named) if (HELP / f"{name}-{it}.txt").exists()]


def usage_of(text):
    return re.search(r"^usage: (.*(?:\n +.*)*)", text, re.MULTILINE)[1]


def options_in(text):
    return list(dict.fromkeys(re.findall(r"--[a-z][a-z-]*", text)))


def own_options(name):
    """The words with which all begin that no command does: the first words of the lines that tell them."""
    lines = re.findall(r"^  ((?:help|--).*?)(?:  |$)", help_text(name), re.MULTILINE)
    return ["help", *options_in("\n".join(lines))]


def completions(name):
    commands = commands_of(name)
    options = {it: [*options_in(usage_of(help_text(name, it))), "--help"] for it in commands}
    cases = "\n".join(f"    {it}) options='{' '.join(options[it])}' ;;" for it in commands)
    return COMPLETIONS.format(name=name, cases=cases, commands=" ".join(commands),
                              first=" ".join([*commands, *own_options(name)]))


def as_it_is(text):
    """A text for man that stands as it is."""
    lines = (line.replace("\\", "\\e").replace("-", "\\-") for line in text.strip("\n").split("\n"))
    return "\n".join([".nf", *("\\&" + line if line[:1] in (".", "'") else line for line in lines), ".fi"])


def man_page(name):
    """The help of all, and behind it that of each command."""
    title, _, rest = help_text(name).partition("\n")
    pieces = [f".TH {name.upper()} 1", ".SH NAME", title.replace(f"{name}: ", f"{name} \\- ", 1),
              ".SH SYNOPSIS", as_it_is(usage_of(help_text(name))), ".SH DESCRIPTION",
              as_it_is(rest.split("\n\n", 1)[1])]
    for command in commands_of(name):
        pieces += [f".SH {command.upper()}", as_it_is(help_text(name, command))]
    return "\n".join(pieces) + "\n"


if __name__ == "__main__":
    sys.stdout.write({"--completions": completions, "--man": man_page}[sys.argv[1]](sys.argv[2]))
