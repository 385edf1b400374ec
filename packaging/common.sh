# shellcheck shell=bash disable=SC2154
# What packaging/install and packaging/dist share. They set `top` and `command_name` before, and `wanted` after it where --unproved is given.

say() {
  echo "$command_name: $1" >&2
}

fail() {
  say "$1"
  exit 1
}

need() {
  local command
  for command; do
    command -v "$command" >/dev/null || fail "there is no $command here: install it, as by apt-get install $command"
  done
}

. "$top/launcher/program.sh"
wanted=proved

# Chooses a program by its name, as it is wanted, and ends where it isn't that of the present sources.
choose_wanted() {
  choose_program "$1" "$wanted"
  is_current && return
  [ "$wanted" = proved ] || fail "there is no unproved $1 of the present sources: launcher/build-unproved makes it"
  fail "there is no proved $1 of the present sources: ./gpiosess --prove makes it. UNPROVED=1 takes an unproved one, which says so"
}

# The commit, and whether something has changed since; and its time, which all files of a package have.
commit=$(git -C "$top" rev-parse HEAD 2>/dev/null || echo unknown)
[ -z "$(git -C "$top" status --porcelain 2>/dev/null)" ] || changed=yes
SOURCE_DATE_EPOCH=${SOURCE_DATE_EPOCH:-$(git -C "$top" log -1 --format=%ct 2>/dev/null || echo 0)}
export SOURCE_DATE_EPOCH

# Prints the version: the number, the commit with its day, whether the tree has changed since, and whether the programs are proved.
full_version() {
  local version
  version=$(cat "$top/VERSION")
  [ "$commit" = unknown ] || version+="~git$(date -u -d "@$SOURCE_DATE_EPOCH" +%Y%m%d).${commit:0:8}"
  echo "$version${changed:++changed}$([ "$wanted" = proved ] || echo +unproved)"
}
