# What the tests in bash share; each sources it first, with the words that it was given. It makes a folder that looks like
# the top of the repository and goes there, and has the recordings and options that most of them want.
#
# Each counts what it tries, names what fails, and what is skipped because something isn't there, and closes with a line
# `N passed, M failed, K skipped`. The program is crates/sllink/out/sllink where none is named. Status: 0 where none
# failed, 1 where one did, 2 where there is no program. counts.py has the same for Python.
set -u
root=$(dirname "$(dirname "$(realpath "$0")")")
script=tests/$(basename "$0")
program=$(realpath -m "${1:-$root/crates/sllink/out/sllink}")
if [ ! -x "$program" ] || [ -d "$program" ]; then
  echo "$script: $program: there is no such program" >&2
  exit 2
fi
room=$(mktemp -d)
trap 'rm -rf "$room"' EXIT
# Temporary files of what is tried have a folder of their own.
mkdir "$room/top" "$room/tmp" "$room/bin" "$room/log"
ln -s "$root/examples" "$root/docs" "$root/tools" "$root/python" "$room/top"
ln -s "$program" "$room/bin/sllink"
for tool in "$root"/tools/*; do ln -s "$tool" "$room/bin"; done
# The programs beside it: those that $SLLINK_FRAMES and the like name, or that stand in their crates.
beside=()
for crate in $(sed -n 's/^PROGRAMS = //p' "$root/Makefile"); do
  name=${crate//_/-} named=${crate^^}
  beside+=("$name")
  ln -sf "$(realpath -m "${!named:-$root/crates/$crate/out/$crate}")" "$room/bin/$name"
  export "$named=$room/bin/$name"
done
export SLLINK=$program TMPDIR=$room/tmp PATH=$room/bin:$PATH PYTHONDONTWRITEBYTECODE=1
export PYTHONPATH=$root/python:$root/tests/lib
cd "$room/top" || exit 1
log=$room/log
caches=$(find "$root/tools" "$root/python" -name __pycache__)
tried=0 failed=0 skipped=0 fails=no

# begin: what is complained of from here on is of the next one that is tried, which then fails, once
begin() {
  tried=$((tried + 1))
  fails=no
}

complain() {
  [ "$tried" != 0 ] || begin
  [ $fails = yes ] || failed=$((failed + 1))
  fails=yes
  echo "FAILED: $*"
}

skip() {
  skipped=$((skipped + 1))
  echo "skipped: $*"
}

finish() {
  echo "$((tried - failed)) passed, $failed failed, $skipped skipped"
  [ "$failed" = 0 ]
  exit
}

# adds COMMAND..: what the command has counted, which closes with the same line
adds() {
  local status=0 last
  "$@" > "$log/counted" 2>&1 || status=$?
  head -n -1 "$log/counted"
  last=$(tail -n 1 "$log/counted")
  if [[ $last =~ ^([0-9]+)\ passed,\ ([0-9]+)\ failed,\ ([0-9]+)\ skipped$ ]]; then
    tried=$((tried + BASH_REMATCH[1] + BASH_REMATCH[2])) failed=$((failed + BASH_REMATCH[2]))
    skipped=$((skipped + BASH_REMATCH[3]))
    if [ "$status" = 0 ] || [ "${BASH_REMATCH[2]}" != 0 ]; then return; fi
  fi
  begin
  complain "$*: it ended with status $status: $last"
}

# expect WHAT WANTED FOUND
expect() {
  if [ "$2" != "$3" ]; then
    complain "$1; < is wanted, > is found"
    diff <(echo "$2") <(echo "$3") | sed -n '/^[<>]/p'
  fi
}

# run COMMAND..: its output, its errors and its status. Nothing may be left behind.
run() {
  begin
  "$@" > "$log/output" 2> "$log/errors"
  status=$?
  [ -z "$(ls -A "$TMPDIR")" ] || complain "$*: left behind: $(ls -A "$TMPDIR")"
  [ "$(find "$root/tools" "$root/python" -name __pycache__)" = "$caches" ] || complain "$*: left __pycache__ behind"
}

# gives STATUS OUTPUT COMMAND..: this status, this output, and nothing on the standard error
gives() {
  run "${@:3}"
  expect "${*:3}: status" "$1" "$status"
  expect "${*:3}: output" "$2" "$(cat "$log/output")"
  expect "${*:3}: errors" "" "$(cat "$log/errors")"
}

# ends STATUS LAST COMMAND..: this status, and this as the last line of the output
ends() {
  run "${@:3}"
  expect "${*:3}" "$1 $2" "$status $(tail -n 1 "$log/output")"
}

# refuses LINE COMMAND..: status 2, and this one line on the standard error, in which a star stands for anything
refuses() {
  run "${@:2}"
  expect "${*:2}: status, and lines on the standard error" "2 1" "$status $(wc -l < "$log/errors")"
  [[ $(cat "$log/errors") == $1 ]] || complain "${*:2}: it said '$(cat "$log/errors")' and not '$1'"
}

# declines LINE COMMAND..: the same, and nothing on the standard output
declines() {
  refuses "$@"
  expect "${*:2}: output" "" "$(cat "$log/output")"
}

# to_nobody COMMAND..: runs it; whoever reads its output has gone
to_nobody() {
  python3 -c 'import os, subprocess, sys
reader, writer = os.pipe()
os.close(reader)
sys.exit(subprocess.run(sys.argv[1:], stdout=writer, check=False).returncode)' "$@"
}

# program_of NAME LINE..: a program that answers to --version as sllink does, and else runs these lines of a shell
program_of() {
  printf '%s\n' '#!/bin/sh' '[ "$1" != --version ] || { echo "sllink 1.0.0"; exit; }' "${@:2}" > "$1"
  chmod +x "$1"
}

# refuses_options COMMAND..: a tool, with all its words but options: what it makes of wrong options, of a program that
# isn't there, isn't sllink, or has a status or totals that aren't those of a run to the end, of an output that is full
# or that nobody reads, of a signal while sllink runs, and its help. All wrong values and all that isn't sllink are tried
# in python/tests.
refuses_options() {
  local called=$1 options
  [ "$1" != python3 ] || called=${*:1:3}
  declines "$called: sllink: *--scid*" "$@" < /dev/null
  declines "$called: sllink: *--scid*" "$@" --scid 1 --scid 1 < /dev/null
  declines "$called: *sllink: too long; *--limit" "$@" --scid 1 --limit 100 < /dev/null
  SLLINK=$(type -P yes) refuses "$called: */yes: isn't sllink, *" "$@" "${tm[@]}" < /dev/null
  program_of other 'exit 1'
  SLLINK=./other refuses "$called: *sllink: *" "$@" "${tm[@]}" < /dev/null
  declines "$called: *$called tm|tc *" $called < /dev/null
  declines "$called: *$called tm|tc *" $called tx $first $first --scid 1 < /dev/null
  run "$@" --help < /dev/null
  expect "$called --help" "0 1" "$status $(grep -c "^ *$called tm|tc " "$log/output")"
  begin
  "$@" "${tm[@]}" < /dev/null > /dev/full 2> "$log/errors"
  expect "$called, full device" "2 1" "$? $(wc -l < "$log/errors")"
  for options in "${tm[*]}" --help; do
    run to_nobody "$@" $options < /dev/null
    expect "$called $options: the reader goes away" "2 " "$status $(cat "$log/errors")"
  done
  begin
  program_of slow ': > started' 'sleep 1'
  rm -f started
  SLLINK=./slow "$@" "${tm[@]}" < /dev/null > /dev/null 2>&1 &
  timeout 60 sh -c 'until [ -e started ]; do sleep 0.05; done'
  kill $!
  wait $!
  expect "$called, stopped: status, and what is left behind" "2 " "$? $(ls -A "$TMPDIR")"
}

# refuses_files COMMAND..: a tool, with @ in place of a recording: what it makes of one that isn't there, is a folder, a
# pipe or a device, or has a name like an option
refuses_files() {
  local name why
  mkdir -p folder
  [ -e fifo ] || mkfifo fifo
  while IFS=: read -r name why; do
    declines "$1: $name:$why" timeout 60 "${@/#@/$name}" "${tm[@]}" < /dev/null
  done << 'END'
missing.tm: there is no such file
folder: is a folder
fifo: is no file that can be read more than once
/dev/null: is no file that can be read more than once
/proc/version: is no file with a size, but one of the system
-dash.tm: is no option; a recording of this name is ./-dash.tm
--dash.tm: is no option; a recording of this name is ./--dash.tm
END
}

# each_odd CALL: calls it with each of the names at which a shell could stumble, which the first station's recording has
each_odd() {
  local name
  for name in "${odd[@]}"; do
    cp $first "./$name"
    "$1" "./$name"
    rm "./$name"
  done
  [ ! -e stumbled ] || complain "a name was run"
}

# has PROGRAM WHAT: is it there? If not, what it would have tried is skipped.
has() {
  command -v "$1" > /dev/null || { skip "$script: $2: $1 isn't there"; false; }
}

# frame COUNT LETTER [OCTET]: a TM frame of 32 octets, with a packet of 26, on virtual channel 0, or 1 where OCTET is 22
frame() {
  printf '\0%b\0%b\30\0\0\1\300\0\0\23' "\\0${3:-20}" "\\0$1"
  printf '%020d' 0 | tr 0 "$2"
}

# make_pass WORD..: a recording of a pass
make_pass() { python3 "$root/tests/lib/passes.py" "$@"; }

# mistakes: two passes, pass.tm and pass.tc, and what is taken by mistake for a recording of the one or the other
mistakes() {
  make_pass tm > pass.tm
  make_pass tc > pass.tc
  make_pass tm --marked > asm.tm
  make_pass tm --randomised > mixed.tm
  make_pass tm --no-field > nofecf.tm
  make_pass tm --secondary > secondary.tm
  make_pass tm --scid 341 > other.tm
  make_pass tm --length 100 --no-field > small.tm
  perl -0777 -ne 'print $_ . "\0" x 160 for /(.{1115})/sg' pass.tm > parity.tm
  perl -0777 -ne 'print substr($_, 0, 1113) for /(.{1115})/sg' pass.tm > bare.tm
  perl -0777 -ne 'print "\xeb\x90$_\xc5\xc5\xc5\xc5\xc5\xc5\xc5\x79"' pass.tc > cltu.tc
  (head -c 60000 pass.tm; tail -c +60068 pass.tm) > cut.tm
  gzip -n < pass.tm > pass.tm.gz
  printf '\xd4\xc3\xb2\xa1' | cat - pass.tm > pass.pcap
  od -A n -v -t x1 pass.tm | tr -d ' \n' > hex.tm
}

first=examples/first-station.tm second=examples/second-station.tm third=examples/third-station.tm
fourth=examples/fourth-station.tm
uplink=examples/uplink.tc
tm=(--scid 1 --tm-length 32 --tm-fecf)
short=(--scid 1 --tm-length 32)
tc=(--scid 1 --tc-length 16)
pass=(--scid 679 --tm-fecf)
commands=(--scid 679 --tc-fecf)
totals="frames 11 skipped 0 packets 6 idle 2 anomalies 0"
# Names at which a shell, a terminal or a page could stumble.
odd=('$(touch stumbled).tm' '`touch stumbled`' '; touch stumbled' '-rf' '--help' "a name & 'more' \"..\".tm" ' ' '*'
  '%s\n' $'line\nfeed.tm' $'not utf-8 \xff\xfe.tm' $'a control \x01.tm' '<script>alert(1)<script>' '"><b>&amp;')
