# The optimised program: the sources and the checks of the checked one, compiled at -O1 (kit.sh). It is built behind a
# command, by `--ready` in a session of its own, and takes its place by one rename; no other run waits for it. Who
# builds it has a lock from before its first step to behind its last. Why it failed is noted, and only `--ready` tries
# again then.
# shellcheck shell=bash
# shellcheck disable=SC2154

# shellcheck source=launch/kit.sh
source "$launch/kit.sh"

# The note and the lock, which lie where the program is to be kept.
note_of() { echo "$place/.failed-$name-$sum"; }

open_lock() { { exec 9> "$place/.lock-optimised"; } 2>/dev/null; }

# Why it could not be built, for the line that says which program runs.
tell_failure() {
  local place
  for place in "${places[@]}"; do
    if [ -r "$(note_of)" ]; then
      echo "; '$0 --ready' tries again to optimise it, which failed: $(head -n 1 "$(note_of)")"
      return
    fi
  done
}

# Begins to build it behind this command, where nobody does and none has failed.
begin_optimised() {
  [ "${LTFS_SECOND_BUILD-}" != no ] || return
  { command -v rt && command -v setsid; } > /dev/null || return
  choose_place
  { [ -n "$place" ] && [ ! -e "$(note_of)" ] && open_lock; } || return
  if flock -n 9 2>/dev/null && [ ! -e "$place/$name-$sum-optimised" ]; then
    say "the same sources and checks are built optimised now, behind this run, in $optimised_build;" \
      "'$0 --ready' waits for that, and '$0 --prove' builds the proved program"
    detach "$top/$name" --ready
  fi
  exec 9>&-
}

# Runs the words in a session of their own, with nothing of this run but the lock.
detach() (
  cd / || return
  for it in /proc/self/fd/*; do
    it=${it##*/}
    case $it in [0-2] | 9 | 255) ;; *) exec {it}>&- ;; esac
  done
  exec setsid --fork nice -n 19 "$@" < /dev/null > /dev/null 2>&1
)

# Has the linker of the kit keep the program before it is run, since that may end at once.
keep_linked() {
  local linker=$notes/kit/toolchain/bin/ld.lld
  rm "$linker" && write_program "$linker" << 'END'
#!/bin/sh
notes=${0%/kit/toolchain/bin/ld.lld} last='' made=program
"${0%/*}/installed/ld.lld" "$@" || exit
for it; do
  [ "$last" != -o ] || made=$it
  last=$it
done
cp "$made" "$notes/copy" && mv "$notes/copy" "$notes/kept"
END
}

build_optimised() {
  local kit said
  note=$(note_of)
  notes=$(mktemp -d "$place/.optimising-$name-XXXXXX" 2>/dev/null) || fail "$place can't be written"
  kit=$(readlink -f "$(command -v rt)")
  said=$({ make_kit "${kit%/bin/rt}" "$notes/kit" && keep_linked; } 2>&1) || fail "${said##*$'\n'}"
  build_checked "$notes/kit/bin/rt" /dev/null
  [ -e "$notes/kit/toolchain/bin/clang.optimised" ] || fail "the kit compiles it otherwise than by its clang at -O0"
  try_checked
  keep_checked -optimised
  rm -f "$note"
  note=
}

# Waits for the optimised program, or builds it, and tells where it is.
make_ready() {
  local after='' begun=$SECONDS
  if is_proved; then
    say "the proved program is ready, in ${proved#"$top/"}"
    return
  fi
  [ "$(ulimit -v)" = unlimited ] || fail "the checked program can't run where 'ulimit -v' sets a limit"
  if ! find_checked || [ -z "$is_optimised" ]; then
    need_kit "it isn't built, and rt, which builds it, isn't on the path"
    choose_place
    [ -n "$place" ] || fail "no folder to keep it can be written"
    trap clean EXIT
    trap 'note=; fail "cut off before the program was built"' INT TERM HUP
    [ ! -t 2 ] || say "the optimised program is built, or waited for where another run builds it: $optimised_build"
    # A run that begins this behind itself hands on its lock.
    [ /proc/self/fd/9 -ef "$place/.lock-optimised" ] || open_lock || fail "$place can't be written"
    take_turn .optimising
    is_kept -optimised || build_optimised
    trap - EXIT INT TERM HUP
    after=" after $((SECONDS - begun)) seconds"
  fi
  say "the optimised program is ready$after, in ${program#"$top/"}"
}
