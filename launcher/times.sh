# shellcheck shell=bash disable=SC2154
# How long an unproved run and a proof take on this machine.

# How many checks fit beside each other here: one a processor, and 3 GB of memory for each.
checks_at_once() {
  local processors memory
  processors=$(nproc)
  memory=$(sed -n 's/^MemAvailable: *\([0-9]*\) kB/\1/p' /proc/meminfo)
  memory=$((${memory:-3000000} / 3000000))
  [ "$memory" -lt "$processors" ] && processors=$memory
  echo $((processors > 0 ? processors : 1))
}

# Prints a line for each program and each crate that it stands on, lowest first: its name, the seconds of its proof (those of seconds.txt),
# and what it uses of the others.
crates_of_programs() {
  awk -v programs="${PROGRAMS[*]}" '
    { sub(/#.*/, "") }
    FILENAME == ARGV[1] { seconds[$1] = $2 + 0; next }
    { at = index($0, ":"); if (at) { split(substr($0, 1, at - 1), head, " "); uses[head[1]] = substr($0, at + 1) } }
    function visit(name, parts, count, i, own) {
      if (name in seen) return
      seen[name] = 1
      count = split(uses[name], parts, " ")
      for (i = 1; i <= count; i++) if (parts[i] in uses) { visit(parts[i]); own = own " " parts[i] }
      print name " " (name in seconds ? seconds[name] : 40) own
    }
    END { count_of = split(programs, names, " "); for (at_name = 1; at_name <= count_of; at_name++) visit(names[at_name]) }
  ' "$top/launcher/seconds.txt" "$top/crates.txt"
}

# Prints how long it takes to prove all from nothing, in words.
proving_time() {
  local at_once
  at_once=$(checks_at_once)
  crates_of_programs | awk -v lanes="$at_once" '
    { total += $2; longest[$1] = $2; for (i = 3; i <= NF; i++) if (longest[$i] + $2 > longest[$1]) longest[$1] = longest[$i] + $2
      if (longest[$1] > chain) chain = longest[$1] }
    END { took = total / lanes; if (took < chain) took = chain
      printf "%d crates, %d at a time: %s from nothing", NR, lanes, took < 90 ? "about a minute" : sprintf("about %d minutes", (took + 59) / 60) }'
}

# Prints how long an unproved run takes, in words.
unproved_time() {
  if [ "$(nproc)" -gt 1 ]; then
    echo "about a minute where nothing else runs"
  else
    echo "about two minutes where nothing else runs"
  fi
}
