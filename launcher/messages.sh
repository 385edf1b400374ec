# shellcheck shell=bash
# What standard output may not say of arguments that are refused (status 2) and of a session that is none (status 3). ./gpiosess reads this
# file for these statuses.

# The words of each statement, and what they are, as docs/FORMATS.md has them.
forms() {
  cat <<'FORMS'
probe|probe LABEL N: LABEL has 1 to 31 letters, digits, _, - or ., and N is from 1 to 512
unplug|unplug CHIP: CHIP is gpiochipN, N or /dev/gpiochipN, with N from 0 to 63
mkdir|mkdir PATH: one directory a statement and no options; PATH has letters, digits, _, -, . and /
rmdir|rmdir PATH: one directory a statement and no options; PATH has letters, digits, _, -, . and /
read|read PATH: PATH has 1 to 127 letters, digits, _, -, . and /
write|write PATH VALUE: VALUE has 1 to 31 letters, digits, _, - or ., and no blanks
clock|clock MONOTONIC REAL: two decimal numbers of nanoseconds
fault|fault N: a decimal number from 1 to 1000000
accept|accept N: a decimal number below 2^64
aggregate|aggregate LABEL NAME, and up to three further names: LABEL has 1 to 31 letters, digits, _, - or ., and each NAME is that of a request
pin|pin range CHIP OFFSET PIN COUNT, pin hold CHIP PIN or pin drop CHIP PIN
irq|irq lock CHIP OFFSET, and so unlock, enable, disable and none
open|open NAME CHIP: NAME has 1 to 15 letters, digits, _, - or .
ioctl|ioctl NAME COMMAND BYTES..: pairs of hexadecimal digits, HH*N for a byte N times, or - alone for none, at most 1024 bytes; after GET_LINE's stands as NAME
ioctl1|ioctl1 NAME COMMAND BYTES..: a command of the first uAPI, with bytes as those of ioctl; after LINEHANDLE's and LINEEVENT's stands as NAME
events|events NAME N: N bytes, at most 49152
events1|events1 NAME N: N bytes, at most 16384
changes|changes NAME N: N bytes, at most 9216
poll|poll NAME
close|close NAME
start|start NAME TOOL ARGUMENTS..: TOOL is gpioset, gpiomon or gpionotify
step|step NAME N: N is from 1 to 1000
stop|stop NAME
actor|actor NAME: NAME has 1 to 15 letters, digits, _, - or .
FORMS
}

# Prints the form of the statement with that word, if there is one.
form_of() {
  forms | sed -n "s/^$1|/wanted is /p"
}

# What to do about a byte that isn't printable ASCII.
about_byte() {
  case $(session_again | sed -n "${row}p" | tail -c "+$column" | head -c 3 | od -An -tx1 | tr -d ' \n') in
  09*) echo "it is a tab: write a blank in its place" ;;
  0d*) printf '%s\n' "the lines end with CR and LF: sed -i 's/\\r\$//' FILE takes the CRs away" ;;
  efbbbf) printf '%s\n' "it is a byte-order mark: sed -i '1s/^\\xEF\\xBB\\xBF//' FILE takes it away" ;;
  00* | fffe* | feff*) echo "the file is not plain text, or is UTF-16: save it as ASCII" ;;
  [89a-f]*) echo "it is no ASCII, as a dash, a quotation mark or a letter with an accent: write it in ASCII, in comments too" ;;
  *) echo "it is a control character: take it away" ;;
  esac
}

# What to do about a word that begins no statement.
about_statement() {
  case $word in
  gpiomon | gpionotify) echo "$word goes on until it is stopped: start NAME $word .., then step NAME N, and stop NAME" ;;
  GET_* | SET_* | WATCH | UNWATCH | 0x*) echo "a command stands after ioctl and the name of a file: ioctl NAME $word .." ;;
  accept) echo "a session that begins with session 1 has no accept: begin it with session 2" ;;
  echo | tee | printf) echo "a file of the tree is written by write PATH VALUE" ;;
  cat) echo "a file of the tree is read by read PATH" ;;
  sleep | wait) echo "time moves by clock MONOTONIC REAL, in nanoseconds, alone" ;;
  rm | rmmod | modprobe) echo "a chip goes by unplug CHIP; a directory of the tree by rmdir PATH" ;;
  *) echo "docs/FORMATS.md lists the statements under 'Statements'" ;;
  esac
}

# What to do about words that are too many, missing, or not of their form.
about_words() {
  case $line in
  *[\"\']*) echo "quotes mean nothing here: a word ends at a blank, and has no blanks" ;;
  *\ \#*) echo "a comment stands on a line of its own, which begins with #" ;;
  *GET_LINE*) echo "after GET_LINE's bytes stands as NAME, which names the request that it makes" ;;
  esac
  form_of "$first"
}

# What to do about a limit.
about_limit() {
  case $first in
  actor) echo "a session has at most 16 actors" ;;
  ioctl | ioctl1) echo "a command has at most 1024 bytes, a word 1300, and a line 128 words; 00*256 is a byte 256 times" ;;
  *) echo "a word has at most 1300 bytes, and a line 128 words" ;;
  esac
}

# What to do about each kind of fault.
about() {
  case $kind in
  byte) about_byte ;;
  header) echo "the first line that is no comment has to be: session 1 (or session 2, which has the statement accept besides)" ;;
  section)
    case $word in
    setup | actor | after) echo "the sections are one setup, then at most 16 of actor NAME, then one after" ;;
    *) echo "statements stand in a section: put the line setup before them" ;;
    esac
    ;;
  statement) about_statement ;;
  words | word) about_words ;;
  name) echo "each actor has a name of its own" ;;
  limit) about_limit ;;
  too-long) echo "a session has at most 1,048,576 bytes" ;;
  cost) echo "it could make more than 300,000 calls: name the chip (gpiodetect 0 costs 3 and not 192, gpioinfo -c 0 515 and not 32960); with an aggregate each call counts five times" ;;
  esac
}

# Prints the line that is refused, or the part of it round the fault, with a caret under the column.
show_line() {
  local from=$((column > 60 ? column - 60 : 0)) part
  part=${line:from:100}
  printf '  %s\n  %*s^\n' "$part" "$((column - from - 1))" "" >&2
}

# Says where a session is refused, and what to do.
explain_refusal() {
  local row column kind line first word said
  said=$(session_again | "$@" 2>/dev/null | head -n 1)
  read -r word row column kind <<<"$said"
  if [ "$word" != refused ]; then
    say "docs/FORMATS.md, 'The first fault', says what each word after 'refused' means"
    return
  fi
  line=
  first=
  if [ "$row" -gt 0 ]; then
    # (a byte that is no printable ASCII would move the caret)
    line=$(session_again | sed -n "${row}p" | LC_ALL=C tr -c ' -~\n' '?')
    word=${line:column-1}
    word=${word%% *}
    read -r first _ <<<"$line"
    say "line $row, column $column: $(meaning)"
    [ -z "$line" ] || show_line
  else
    say "the session as a whole: $(meaning)"
  fi
  about | while IFS= read -r line; do say "$line"; done
}

# What a kind of fault is, in words.
meaning() {
  case $kind in
  byte) echo "a byte that is no printable ASCII" ;;
  header) echo "neither 'session 1' nor 'session 2'" ;;
  section) echo "a section out of order, or a line before the first" ;;
  statement) echo "no statement begins with this word" ;;
  words) [ -n "$word" ] && echo "a word too many" || echo "a word is missing" ;;
  word) echo "a word that is not of its form" ;;
  name) echo "another actor has this name" ;;
  limit) echo "beyond a limit" ;;
  too-long) echo "too many bytes" ;;
  cost) echo "it could do too much" ;;
  esac
}

# Says how the launcher is called.
explain_calls() {
  say "a session is given as ./gpiosess < FILE, and the arguments are these alone:"
  say "  ./gpiosess < examples/one-chip.session    runs the session of that file"
  say "  ./gpiosess check < FILE                   judges a printed run"
  say "  ./gpiosess --generate N                   runs a load of N turns, from 1 to 5000"
  say "  ./gpiosess --prove                        proves and builds the program"
}

# What is to be done about an input that can't be judged.
explain_check() {
  say "what is judged is a line check N, the N bytes of a session, and the output of its run, at most 67,108,864 bytes together"
  say "for a session FILE and its output OUTPUT: { printf 'check %d\\n' \$(wc -c < FILE); cat FILE OUTPUT; } | ./gpiosess check"
}

# Says more of a run that ended with status 2 or 3. The program's first argument is handed in, and what prints the refusal once more.
explain() {
  if [ "$1" = 2 ]; then
    explain_calls
  elif [ "$2" = check ]; then
    explain_check
  else
    explain_refusal "${@:3}"
  fi
}
