# shellcheck shell=bash
# Which programs are made from the present sources: the proved ones in crates/NAME/out, and the unproved ones in out/unproved.
# The launchers, .ci/run and the checks read this file, with `top` set to the top of the repository. Those that make programs define `say`,
# which prints a sentence, and `fail`, which does so and ends with the status of the launcher.
#
# Beside each program stands its record, NAME.record. It has HEAD_LINES lines and then a listing of files:
#   program: NAME
#   proved: yes or no
#   toolchain: what `rt version` printed when the program was made
#   sources: the SHA-256 sum of what the program was made from
#   sum: the SHA-256 sum of the program
# A program whose record doesn't have both sums of the present files is never run as one of the present sources.
PROGRAMS=(gpiosess gpioserved)
HEAD_LINES=5

# Whether a crate is a program that the launchers run.
is_program() {
  [[ " ${PROGRAMS[*]} " == *" $1 "* ]]
}

# Chooses a program by its name and by `proved` or `unproved`: the functions below speak of the one that was chosen last.
choose_program() {
  program_name=$1
  source_files=("$top/crates.txt")
  if [ "$2" = proved ]; then
    is_proved=yes
    program=$top/crates/$1/out/$1
    source_files+=("$top/HANDLES" "$top"/crates/*/src "$top"/crates/*/specs "$top"/crates/*/proofs)
  else
    # (no code comes from specs/ and proofs/)
    is_proved=no
    program=$top/out/unproved/$1
    source_files+=("$top/launcher/build.sh" "$top"/crates/*/src)
  fi
  record=$program.record
}

# Prints the file number, the size and the time of the last change of each file and folder that the program is made from, of the program and
# of the toolchain's command. Nobody can set that time, so files with the same listing have the same bytes. It ends the subshell in which it
# is called, so that no further process is made for it.
listing() {
  local files=("${source_files[@]}" "$program")
  [ "$is_proved" = yes ] || files+=("$(type -P rt)")
  exec find -H "${files[@]}" -printf '%i %s %C@\n' 2>/dev/null
}

# Prints the sum of all that the program is made from.
sum_of_sources() {
  local sum
  sum=$(cd "$top" && find "${source_files[@]#"$top"/}" -type f -print0 2>/dev/null | LC_ALL=C sort -z | xargs -0 sha256sum | sha256sum)
  echo "${sum%% *}"
}

# Prints the head of a record, for a sum of the sources and the toolchain's line.
head_of_record() {
  local sum
  sum=$(sha256sum <"$program")
  printf 'program: %s\nproved: %s\ntoolchain: %s\nsources: %s\nsum: %s\n' "$program_name" "$is_proved" "$2" "$1" "${sum%% *}"
}

# Writes the record of this head and this listing.
write_record() {
  if printf '%s\n%s\n' "$1" "$2" 2>/dev/null >"$record.$$"; then
    mv -f "$record.$$" "$record"
  else
    rm -f "$record.$$"
    return 1
  fi
}

# Prints the toolchain's line that a program of now has: an unproved program is made anew where the toolchain is another one, and a proof stays
# one.
present_toolchain() {
  { [ "$is_proved" = no ] && rt version 2>/dev/null; } || sed -n 's/^toolchain: //p;3q' "$record"
}

# Whether the program was made from the present sources. Only where the listing has changed are files read.
is_current() {
  [ -x "$program" ] && [ -f "$record" ] || return
  { for ((at = 0; at < HEAD_LINES; at++)); do read -r _; done && cmp -s - <(listing); } <"$record" && return
  local at listed head
  listed=$(listing)
  head=$(head_of_record "$(sum_of_sources)" "$(present_toolchain)")
  [ "$(head -n "$HEAD_LINES" "$record")" = "$head" ] || return
  write_record "$head" "$listed"
  return 0
}

# Notes that the program was made just now, by the toolchain of that line, unless its sources have changed since they had the sum that is
# handed in. The status is 1 where they have, and 2 where the record can't be written.
note_build() {
  local listed
  listed=$(listing)
  [ "$1" = "$(sum_of_sources)" ] || return 1
  write_record "$(head_of_record "$1" "$2")" "$listed" || return 2
}

# Ends where there is no toolchain.
need_toolchain() {
  command -v rt >/dev/null || fail "the toolchain's command rt is not on the PATH; README.md says which toolchain it is"
}

# Chooses the program that a check runs: the one that GPIOSESS names, or the proved one of the present sources. Without one the check of that
# name ends.
stop_without_program() {
  if [ -n "${GPIOSESS-}" ]; then
    program=$GPIOSESS
    [ -x "$program" ] && return
    echo "$1: stopped: $program, which GPIOSESS names, is no program"
  else
    choose_program gpiosess proved
    is_current && return
    echo "$1: stopped: the program is not that of the present sources. ./gpiosess --prove proves and builds it"
  fi
  echo "0 passed, 1 failed"
  exit 1
}

# Prints what the program says of the output of a session, where both are files.
judgment() {
  { printf 'check %d\n' "$(wc -c <"$1")" && cat "$1" "$2"; } | "$program" check
}

choose_program gpiosess proved
