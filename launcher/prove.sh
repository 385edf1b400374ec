# shellcheck shell=bash disable=SC2154
# Proves and builds the programs. The launchers read this file for --prove.
# `rt ci` does that, in a copy of the crates that the programs stand on. It proves as many side by side as processors and memory allow, and takes
# over what it has passed on this machine before, in any copy: so a proof that is cut off goes on where it was, and one after CI takes minutes.
. "$top/launcher/times.sh"
proving_in=$top/crates/gpiosess/out
prover=

# Waits until no other --prove works here.
take_turn() {
  mkdir -p "$proving_in" || fail "$proving_in can't be written to"
  command -v flock >/dev/null || return
  exec 8>"$proving_in/proving"
  flock -n 8 && return
  say "waiting for another --prove to end"
  flock 8
}

# Whether all programs are those of the present sources.
all_current() {
  local name
  for name in "${PROGRAMS[@]}"; do
    choose_program "$name" proved
    is_current || return
  done
}

# Copies what a proof of the programs reads.
fill_copy() {
  local name part
  # (rt takes the folder that has .git for the top of a repository)
  mkdir -p "$room/copy/.git" && cp "$top/HANDLES" "$room/copy/" || return
  while read -r name _; do
    mkdir -p "$room/copy/crates/$name" || return
    for part in src specs proofs stdin stdout args status data; do
      [ ! -e "$top/crates/$name/$part" ] || cp -a "$top/crates/$name/$part" "$room/copy/crates/$name/" || return
    done
    grep "^${name}[ :]" "$top/crates.txt" >>"$room/copy/crates.txt" || return
    crates=$((crates + 1))
  done < <(crates_of_programs)
}

# Shows how many crates are proved: on a terminal in one line for all, else in a line for each.
show_all() {
  local name how
  while read -r name how; do
    proved=$((proved + 1))
    [ -t 2 ] || say "crate $proved of $crates, $name: $how"
  done < <(sed -nE 's/^rt: ([a-z0-9_]+) (proved$|is kept:.*)/\1 \2/p' "$room/said" | sed 's/ is kept:.*/ proved before/' | tail -n "+$((proved + 1))")
  [ ! -t 2 ] || printf '\r\033[K%s of %s crates are proved, %s seconds' "$proved" "$crates" "$((SECONDS - began))" >&2
}

# Ends what runs. What it has passed is kept by rt.
end_proving() {
  [ -z "$prover" ] || kill -- "-$prover" 2>/dev/null
  [ -z "$prover" ] || wait "$prover" 2>/dev/null
  rm -rf "$room"
}

# Says which crate and which functions were not proved.
tell_failure() {
  local name functions
  name=$(sed -nE 's/^rt: ([a-z0-9_]+) NOT PROVED$/\1/p' "$room/said" | head -n 1)
  functions=$(sed -nE 's/^fn ([^ ]+): (not proved|no proof).*/\1/p' "$room/said" | sort -u | paste -sd , | sed 's/,/, /g')
  grep -aEv ': proved$|^(statements|library|logic|by-macro:|crate|checked|ahead) |^only=|^so far: |^rt: chose' "$room/said" | tail -n 30 >&2
  [ -n "$name" ] || fail "the programs could not be built; what the toolchain says stands above"
  fail "crate $name was not proved${functions:+: fn $functions}; the last lines of the prover stand above. No program was built"
}

# Runs `rt ci` over the copy, in a process group of its own, so that it can be ended as a whole.
run_proof() {
  local began=$SECONDS status
  set -m
  (cd "$room/copy" && exec rt ci) >"$room/said" 2>&1 </dev/null 8>&- &
  prover=$!
  set +m
  while kill -0 "$prover" 2>/dev/null; do
    sleep 0.5
    show_all
  done
  wait "$prover"
  status=$?
  prover=
  show_all
  [ ! -t 2 ] || echo >&2
  return "$status"
}

# Moves the programs to their places, and notes what they were made from.
keep_programs() {
  local name
  for name in "${PROGRAMS[@]}"; do
    choose_program "$name" proved
    rm -f "$record"
    if ! mkdir -p "${program%/*}" || ! mv -f "$room/copy/crates/$name/out/$name" "$program"; then
      fail "$program can't be written"
    fi
    note_build "$1" "$2" || fail "the sources changed while $name was proved, or $record can't be written: call it again"
  done
}

# Proves and builds the programs that aren't those of the present sources.
prove() {
  local sources toolchain crates=0 proved=0
  need_toolchain
  take_turn
  if all_current; then
    say "${PROGRAMS[*]}: proved and built from the present sources"
    exec 8>&-
    return
  fi
  say "proving and building ${PROGRAMS[*]}: $(proving_time)"
  sources=$(sum_of_sources)
  toolchain=$(rt version)
  rm -rf "$proving_in"/{lanes,proving}.*
  room=$(mktemp -d "$proving_in/proving.XXXXXX") || fail "there is no space for a folder in $proving_in"
  trap end_proving EXIT
  trap 'exit 130' INT
  trap 'exit 143' TERM HUP
  fill_copy || fail "there is no space for a copy of the sources in $proving_in"
  run_proof || tell_failure
  keep_programs "$sources" "$toolchain"
  end_proving
  trap - EXIT INT TERM HUP
  exec 8>&-
  say "proved and built: ./gpiosess and ./gpioserve run these programs from now on"
}
