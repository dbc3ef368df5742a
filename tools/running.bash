# Read by ./bpfmap and ./bpfmap-try, which set top to the folder of the repository, program to the program that they run, and
# may set called to their own name: how the program is run, and what is told behind its answer.
: "${called:=bpfmap}"
# (quoted where a shell wants it, so that what has it can be pasted)
printf -v pasted %q "$top"

say() {
  echo "$called: $*" >&2
}

# The kit that the command rt belongs to. (Its file is read, since rt itself takes a while to say it.)
toolchain() {
  local rt
  if ! rt=$(command -v rt); then
    echo 'no toolchain on the PATH'
  else
    rt=$(readlink -f -- "$rt")
    cat "${rt%/bin/*}/KIT-ID" 2>/dev/null || timeout 5 rt version 2>/dev/null || echo 'a toolchain that tells no version'
  fi
}

usage() {
  local number='without a number' date=
  [ ! -e "$top/VERSION" ] || read -r number date <"$top/VERSION"
  cat <<USAGE
bpfmap $number${date:+, $date}: the hash maps of the BPF subsystem of Linux 6.1 in user space. Toolchain: $(toolchain)
Try: $pasted/$called serial < $pasted/examples/first.bpfmap
usage: $called MODE [--history] [--dump] [--json] < SCRIPT
  serial     the calls one after another, in the order of the script
  race       the calls of each CPU in a thread of its own
  gen        the calls that a generator line stands for, and a summary
  compare    the calls beside a map of strict recency: hits and evictions
  check      whether a report behind its script and a line %% is one of a run
  copy       as race, and CPU 0 copies the map into another beside the last phase
  --history  what happened under each lock
  --dump     what the map holds at the end
  --json     the report as one JSON object
The mode once, and each option at most once, in any order; none with compare or check, not --json with copy.
Scripts, reports, statuses: man -l $pasted/docs/bpfmap.1
USAGE
} >&2

# finish STATUS: ends with it, or, where a write failed since nobody reads the pipe any more, by that signal, as other programs do.
finish() {
  if [ "$1" -eq 4 ] && { [ -p /dev/fd/1 ] || [ -S /dev/fd/1 ]; }; then
    trap - PIPE
    kill -s PIPE "$BASHPID"
    exit 141
  fi
  exit "$1"
}

# is_command WORD..: whether the program takes these words, of which it keeps the mode. (It judges them itself: this says only
# whether it is worth building it for them, and whether it will read its input.)
is_command() {
  local word given=' '
  mode=
  for word; do
    case $word in
      serial | race | gen | compare | check | copy)
        [ -z "$mode" ] || return 1
        mode=$word
        ;;
      --history | --dump | --json | --)
        [[ $given != *" $word "* && $given != *' -- '* ]] || return 1
        given+="$word "
        ;;
      *) return 1 ;;
    esac
  done
  case $mode$given in
    ' '* | compare*--[hdj]* | check*--[hdj]* | copy*--json*) return 1 ;;
  esac
}

# explained WORD..: says by tools/explain, with these words, what is wrong, where there is a Python for it.
explained() {
  command -v python3 >/dev/null && python3 "$top/tools/explain" "$@" >&2 2>/dev/null
}

# Answers words that the program refuses, as it does, where it needn't be there for that.
refuse_words() {
  trap '' PIPE
  echo 'bpfmap: words' 2>/dev/null || finish 4
  tell_words "$@"
  exit 2
}

tell_words() {
  case "$#${1-}" in
    0 | 1--help | 1-h | 1--version) ;;
    *) explained --words "$@" ;;
  esac
  usage
}

# Sets input to a descriptor of a file that has what the program will read, and from to where that begins: the file that is
# there, or what comes by a pipe, copied on its way.
input= from=0
keep_input() {
  local copy line
  if [ -f /dev/fd/0 ] && [ -r /proc/self/fdinfo/0 ]; then
    input=0
    exec {line}</proc/self/fdinfo/0 && read -r -u "$line" _ from && exec {line}<&-
  elif [ -p /dev/fd/0 ] && is_command "$@" && command -v python3 >/dev/null && command -v tee >/dev/null; then
    copy=$(mktemp "${TMPDIR:-/tmp}/bpfmap.XXXXXX" 2>/dev/null) && exec {input}<>"$copy" && rm -f "$copy"
  fi
}

# tell_fault WORD..: what stands where the script is refused, and where more is said of it. The last line tells each time which
# form of script is read in the mode that these words name, and how lines of a report are counted.
tell_fault() {
  local page="man -l $pasted/docs/bpfmap.1"
  local causes="$pasted/docs/FORMATS.md, \"Causes\", and $page" verdicts="$pasted/docs/FORMATS.md, \"Verdicts\", and $page"
  local json=
  [[ " $* " != *' --json '* ]] || json=--json
  if [ "$status" -ne 9 ] && [ -n "$input" ] && is_command "$@"; then
    explained --from "$from" --mode "$mode" $json <&"$input"
    # (nothing stands beside the object)
    [ "$?" -ne 1 ] || [ -z "$json" ] || return
  fi
  case "$status $* " in
    9*) say "what the flaw says: $verdicts" ;;
    10*) say "why a report isn't read: $verdicts. It has --history and --dump, and its lines are counted from the line %% on." ;;
    11*) say "why a script isn't compared: $causes" ;;
    6*) say "why a map is refused: $causes" ;;
    *' gen '*) say "what the cause says: $causes. Mode gen reads a generator line; copy a target line and calls; the others calls." ;;
    *' copy '*) say "what the cause says: $causes. Mode copy reads a target line and calls, none of CPU 0 in the last phase; gen a generator line; the others calls." ;;
    *) say "what the cause says: $causes. Modes serial, race, compare and check read calls; gen a generator line; copy a target line and calls." ;;
  esac
}

# run_program WORD..: runs it on standard input, says more behind an answer that is no report, and ends with its status.
run_program() {
  keep_input "$@"
  if [ "${input:-0}" -eq 0 ]; then
    "$program" "$@"
  else
    "$program" "$@" < <(exec tee "/dev/fd/$input" 2>/dev/null) {input}>&-
  fi
  status=$?
  # (which the program has exactly where it refuses the script, its map or the words, or says no of a report)
  case $status in
    1 | 6 | 9 | 10 | 11) tell_fault "$@" ;;
    2) tell_words "$@" ;;
  esac
  finish "$status"
}
