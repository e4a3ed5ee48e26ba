# What the launchers do with words of their own, which no program knows, and what they have Python do.
# shellcheck shell=bash
# shellcheck disable=SC2034,SC2154

# What the program is given, in which form its output goes on, whether nothing is asked, and the file that is read;
# then the processes beside the program, and a copy of what it reads.
given=()
filter=
is_sure=
file=-
feeder=
copy=
filtering=

has_python() { command -v python3 > /dev/null; }

need_python() { has_python || fail "python3, which does what '$1' asks for, isn't on the path"; }

# Runs a program of this folder, with nothing of a person's own settings for Python, and leaves no file.
run_python() { python3 -BEs "$launch/$1" "${@:2}"; }

# Takes the words that are for the launcher. Those behind `--`, and a second one of a kind, are left to the program,
# which refuses them.
take_words() {
  local it is_behind=
  given=("$@")
  case $name:$#:$1 in
    index_tool:2:check | index_tool:2:canon)
      if [[ $2 != -?* ]]; then given=("$1"); file=$2; fi
      return
      ;;
    ltfs_server:*:list | ltfs_server:*:generations | ltfs_server:*:format) given=("${@:1:2}") ;;
    *) return ;;
  esac
  for it in "${@:3}"; do
    [ "$it" != -- ] || is_behind=1
    case $is_behind:$1:$it in
      :list:--human | :list:--json | :generations:--json)
        if [ -z "$filter" ]; then filter=${it#--}; continue; fi
        ;;
      :format:--yes) if [ -z "$is_sure" ]; then is_sure=1; continue; fi ;;
    esac
    given+=("$it")
  done
  [ -z "$filter" ] || need_python "--$filter"
}

# Asks a person at a terminal before the volume in a folder is wiped.
ask_before_format() {
  if [ "$name:$1" != ltfs_server:format ] || [ -n "$is_sure" ]; then return; fi
  if [ ! -t 0 ] || [ ! -t 2 ] || ! has_python; then return; fi
  run_python ask.py "$@" || exit 1
}

# Opens the file that is to be read as standard input.
open_file() {
  local why
  if [ "$file" = - ] || { exec < "$file"; } 2>/dev/null; then return; fi
  why=$({ : < "$file"; } 2>&1)
  say "${file:-a file of an empty name} can't be opened: ${why##*: }"
  exit 5
}

# Where what is read may be asked for again, notes where it begins; of what can't be read twice a copy is kept.
begin_input() {
  local key value
  if [ "$name" != index_tool ] || [ "${#given[@]}" -ne 1 ] || ! has_python; then return; fi
  if [ -p /dev/stdin ] || [ -S /dev/stdin ] || [ -t 0 ]; then
    copy=$(mktemp 2>/dev/null) || return
    trap 'rm -f "$copy"' EXIT
    exec < <(trap '' INT QUIT; exec tee -- "$copy" 2>/dev/null)
    feeder=$!
    return
  fi
  while read -r -u 7 key value; do
    [ "$key" != pos: ] || begin=$value
  done 2>/dev/null 7< /proc/self/fdinfo/0
}

# Takes the copy in place of what was read. One that isn't whole is none.
end_input() {
  [ -n "$feeder" ] || return
  if [ "$status" -ne 2 ]; then kill "$feeder" 2>/dev/null; fi
  if wait "$feeder"; then exec < "$copy"; else exec < /dev/null; fi
}

# Begins the filter, where there is one, to read what comes from 8.
begin_filter() {
  [ -n "$filter" ] || return
  exec 8> >(run_python filters.py "$filter" "${given[0]}")
  filtering=$!
}

# Has the program write to the filter.
join_filter() { [ -z "$filter" ] || exec >&8 8>&-; }

# Waits for the filter. Where it couldn't write, that is how the run ended.
end_filter() {
  [ -n "$filter" ] || return
  exec 8>&-
  wait "$filtering" || status=6
}
