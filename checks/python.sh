# shellcheck shell=bash
# Runs a check that is written in Python: run_python NAME ARGUMENTS.. runs NAME.py of this folder. Where there is no python3 it says so and
# passes nothing. The checks read this file.
run_python() {
  if ! command -v python3 >/dev/null; then
    echo "$1: left out, since there is no python3"
    echo "0 passed, 0 failed"
    exit 0
  fi
  PYTHONDONTWRITEBYTECODE=1 exec python3 "$(dirname "${BASH_SOURCE[0]}")/$1.py" "${@:2}"
}
