# shellcheck shell=bash disable=SC2034,SC2154
# Runs a session by an unproved program. ./gpiosess reads this file where no proved program of the present sources is there.
. "$top/launcher/times.sh"
. "$top/launcher/build.sh"

# Says that the session runs unproved, why, and what would end that.
say_unproved() {
  choose_program gpiosess proved
  if [ -f "$record" ]; then
    say "this runs UNPROVED: the sources have changed since the program was proved"
  else
    say "this runs UNPROVED: the program has not been proved on this machine yet"
  fi
  say "./gpiosess --prove proves and builds it ($(proving_time))"
}

# Runs the session by the program that is made once for the present sources, and sets the status. False where none can be made here: then
# `rt try` translates the sources for this session alone.
run_kept() {
  choose_program gpiosess unproved
  if ! is_current; then
    make_unproved
    case $? in
    0) ;;
    "$REFUSED") exit 1 ;;
    *) return 1 ;;
    esac
  fi
  say_unproved
  choose_program gpiosess unproved
  again=("$program")
  run_program "$@"
}

# Puts what is read into a file: as much as a session or a printed run may have, and one byte more.
keep_input() {
  local most=1048577
  if [ "${1-}" = check ]; then
    most=67108865
  elif [ $# -gt 0 ]; then
    : >"$room/input"
    return
  fi
  [ -t 0 ] && say "reading from the terminal, up to Ctrl-D on a line of its own"
  head -c "$most" >"$room/input" 2>/dev/null
}

# Says why there was no answer.
say_without_answer() {
  local why
  why=$(sed -n 's/^checked: no-answer: //p' "$room/said" | tail -n 1)
  if [ -n "$why" ]; then
    say "there is no answer without a program: ${why//the program/the session}"
    say "./gpiosess --prove makes one, and then this again"
    return
  fi
  grep -v '^interpreter: no-answer' "$room/said" | tail -n 30 >&2
  say "the present sources can't be run: what the toolchain says of them stands above"
}

# Runs the session by `rt try`, and sets the status.
run_by_try() {
  need_toolchain
  room=$(mktemp -d) || fail "there is no space for a temporary folder in ${TMPDIR:-/tmp}"
  trap 'rm -rf "$room"' EXIT
  [ $# -eq 0 ] || [ "$1" = --generate ] || [ "$1" = check ] || say "a session is given as ./gpiosess < FILE"
  say_unproved
  say "no program could be kept, so the toolchain translates the sources for this session alone, in $(unproved_time)"
  if ! keep_input "$@"; then
    status=4
    return
  fi
  copy=$room/input
  (cd "$top/crates/gpiosess" && exec rt try -- "$@" <"$room/input" >"$room/output" 2>"$room/said")
  status=$(tail -n 1 "$room/said" | sed -n 's/^run=ended status=\([0-9]*\) .*proved=no$/\1/p')
  if [ -z "$status" ]; then
    say_without_answer
    status=1
  elif ! cat "$room/output"; then
    status=5
  fi
  again=(cat "$room/output")
}

# Runs the session without a proof, and sets the status, and how its refusal is printed once more.
run_unproved() {
  run_kept "$@" || run_by_try "$@"
}
