# What the launchers know of the kit. It may be another one than that with which the program was proved; and they make
# one of it whose programs with checks are optimised: links to the kit that is installed, with its clang behind a script.
# `rt try` has a program compiled at -O0, with all checks and the address sanitizer; the script asks for -O1 in place
# of that, and for the same checks. The launchers build by it, and some of the tests.
# shellcheck shell=bash
# shellcheck disable=SC2154

# The kit with which the program was proved. README.md names it, too.
proved_kit=rattle-kit-13f

# Ends with these words where there is no kit, and tells where it is older than that one.
need_kit() {
  local here older
  command -v rt > /dev/null || fail "$1"
  here=$(rt version 2>/dev/null)
  here=${here%% *}
  older=$(printf '%s\n' "$here" "$proved_kit" | LC_ALL=C sort -V | head -n 1)
  if [ -n "$here" ] && [ "$here" != "$proved_kit" ] && [ "$here" = "$older" ]; then
    say "the kit here, $here, is older than $proved_kit, with which the program was proved"
  fi
}

# Makes a folder with links to all that stands in another one, but what is named behind the two.
link_all() {
  local from=$1 to=$2 it
  shift 2
  mkdir "$to" || return
  for it in "$from"/*; do
    [[ " $* " = *" ${it##*/} "* ]] || ln -s "$it" "$to" || return
  done
}

# Writes a program of standard input.
write_program() { cat > "$1" && chmod +x "$1"; }

# Makes such a kit of the one in the first folder as the second folder. What refuses it is told on standard error.
make_kit() {
  local kit=$1 made=$2 it
  for it in bin/rt bin/rtlib.py bin/rattle toolchain/bin/clang; do
    [ -f "$kit/$it" ] || { echo "the kit of rt has no $it" >&2; return 1; }
  done
  # Its own programs find it by their place, and a link would lead them to the one that is installed. What `rattle`
  # would say in front of a try is a hint to who changes the sources.
  link_all "$kit" "$made" bin toolchain &&
    link_all "$kit/bin" "$made/bin" rt rtlib.py rattle &&
    cp "$kit/bin/rt" "$kit/bin/rtlib.py" "$made/bin" &&
    write_program "$made/bin/rattle" <<< '#!/bin/sh' &&
    link_all "$kit/toolchain" "$made/toolchain" bin &&
    link_all "$kit/toolchain/bin" "$made/toolchain/bin" clang &&
    ln -s "$kit/toolchain/bin" "$made/toolchain/bin/installed" &&
    write_program "$made/toolchain/bin/clang" << 'END'
#!/bin/sh
for it; do
  shift
  [ "$it" != -O0 ] || { it=-O1; : > "$0.optimised"; }
  set -- "$@" "$it"
done
exec "${0%/*}/installed/clang" "$@"
END
}
