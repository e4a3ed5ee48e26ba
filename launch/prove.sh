# Proves and builds the program, and tells meanwhile how far it is.
# shellcheck shell=bash
# shellcheck disable=SC2154

# A line for each crate that is begun, and one for each tenth of its functions.
tell_progress() {
  local line seen of begun=0 all=$1 crate='' last=''
  while IFS= read -r line; do
    case $line in
      "rt: chose "*" for "*)
        crate=${line##* for }
        begun=$((begun + 1))
        say "crate $begun of at most $all: $crate"
        continue
        ;;
      "so far: "*" of "*) seen=${line#so far: } ;;
      "checked "*", "*" of "*) seen=${line##*, } ;;
      *) continue ;;
    esac
    of=${seen#* of } of=${of%% *} seen=${seen%% *}
    if [ "$of" -gt 0 ] && [ "$crate $((seen * 10 / of))" != "$last" ]; then
      last="$crate $((seen * 10 / of))"
      say "$crate: $seen of $of functions proved"
    fi
  done
}

# What a run costs of the proved program, over the words and the input that its crate has for this.
tell_cost() {
  local words before after
  mapfile -t words < "$folder/args"
  before=${EPOCHREALTIME/[.,]/}
  "$proved" "${words[@]}" < "$folder/stdin" > /dev/null
  after=${EPOCHREALTIME/[.,]/}
  say "the proved program stands in $proved; a run of it took $(((after - before + 500) / 1000)) milliseconds" \
    "('$name ${words[*]}' over crates/$name/stdin)"
}

prove_program() {
  local words status all
  if is_proved; then
    tell_cost
    return
  fi
  need_kit "rt, which proves and builds it, isn't on the path"
  [ -w "$folder" ] || fail "it can't be proved here, since $folder can't be written"
  trap clean EXIT
  trap 'fail "cut off before the program was built"' INT TERM HUP
  notes=$(mktemp -d) || fail "no folder for the notes of the build could be made"
  mapfile -t words < "$folder/args"
  mkfifo "$notes/lines" || fail "no pipe for the notes of the build could be made"
  all=$(crates_of | wc -l)
  say "proving and building the program and the crates below it, $all in all: $proved_build"
  tell_progress "$all" < "$notes/lines" &
  set -m
  (cd "$folder" && exec rt run -- "${words[@]}" < stdin) > "$notes/out" 2> "$notes/lines" &
  build=$!
  set +m
  wait "$build"
  status=$?
  build=
  if [ "$status" -ne 0 ] || [ ! -x "$proved" ]; then fail "the build failed, and 'rt run' in $folder says why"; fi
  touch "$proved" 2>/dev/null
  tell_cost
}
