#!/usr/bin/env bash
# What the programs do with bad input and output: nothing hangs and nothing is half said unnoticed.
# `model run` is the program itself, `model report`, `model sweep` and `model steps` are what one uses.
# What each gives:
#   closed, write-only or folder as standard input   taken as an empty file: BAD 9 1 1 (model: status 1)
#   closed or full standard output, a file cut off   the program says it on standard error and ends with 1;
#     by the size limit                              model says it there too and ends with 2
#   a pipe with one byte at a time, or in two halves the whole report, as from a file
#   100 MB, input without end                        BAD 10 0 0 at once, without reading it all
#   NUL bytes                                        BAD 9 with the line and the column
#   sweep: missing, folder, no permission, no name,  "NAME: cannot be read", and the next files are answered;
#     a name that is not UTF-8                       model says why on standard error, and ends with 2
#   BAD files                                        named with that line, and status 1; on a terminal model
#                                                    shows the line too, with a mark under the column
#   a program that is missing, stale or truncated    built, which is said in a few lines; a stand-in for the
#                                                    toolchain is used here, so that nothing is proved
set -u
root=$(dirname "$(dirname "$(readlink -f "$0")")")
model=$root/model
example=$root/examples/worked_example.schedule
work=$(mktemp -d) || exit 2
trap 'chmod -R u+rwx "$work"; rm -rf "$work"' EXIT
cd "$work" || exit 2
passed=0
failed=0
# Each try below has ten seconds, which is no time to prove anything in.
"$model" build || exit 2

expected='WARMUP 1 applied 1 idle 0 refused 0 sent 0 again 0 decided 0
MEASURED 4 applied 3 idle 0 refused 1 sent 3 again 0 decided 2
PROCESSES 3
1 up 0 1 1 7 - 0 -
2 up 0 1 1 7 7 0 2
3 up 0 1 3 5 7 0 3'

# check NAME STATUS TEXT: the last try ended with STATUS and said TEXT ("*" stands for any status that
# the program itself chose: no timeout and no signal).
check() {
  local good=yes
  if [ "$2" = '*' ]; then [ "$status" -lt 124 ] || good=; else [ "$status" -eq "$2" ] || good=; fi
  [ "$(cat out)" = "$3" ] || good=
  if [ -n "$good" ]; then
    passed=$((passed + 1))
    echo "ok      $1 (status $status)"
  else
    failed=$((failed + 1))
    echo "FAILED  $1: status $status, said: $(head -c 300 out | tr '\0\n' '?|'); expected $2: $(tr '\n' '|' <<< "$3" | head -c 300)"
  fi
}
# try COMMAND..: standard output into the file out, the status into $status, ten seconds at most.
try() { timeout 10 "$@" > out 2> err; status=$?; }
one_byte_at_a_time() {
  local byte
  while IFS= read -r -N 1 byte; do printf '%s' "$byte"; sleep 0.003; done < "$1"
}

# Standard input
try "$model" run report <&-;            check "report, standard input closed" '*' 'BAD 9 1 1'
try "$model" report <&-;                check "model report, standard input closed" 1 'BAD 9 1 1'
try "$model" run report < "$work";      check "report, a folder as standard input" '*' 'BAD 9 1 1'
try "$model" run report 0> /dev/null;   check "report, standard input open for writing only" '*' 'BAD 9 1 1'
try "$model" report < /dev/null;        check "model report, empty standard input" 1 'BAD 9 1 1'
one_byte_at_a_time "$example" | { try "$model" run report; echo "$status" > status; }
status=$(cat status);                   check "report, one byte at a time" 0 "$expected"
one_byte_at_a_time "$example" | { try "$model" report; echo "$status" > status; }
status=$(cat status);                   check "model report, one byte at a time" 0 "$expected"
mkfifo fifo
one_byte_at_a_time "$example" > fifo &
try "$model" run sweep fifo;            check "sweep, a pipe with one byte at a time" 0 "fifo
$expected"
wait

# The greatest file, in two halves, and with one byte more
{
  printf 'VALUES 1\n0\nWARMUP 0\nMEASURED 2978\n'
  for ((i = 0; i < 2977; i++)); do echo 'E 100000 100000 10000'; done
  echo 'P 1000'
} > greatest
{ cat greatest; echo; } > just_too_long
all_refused='WARMUP 0 applied 0 idle 0 refused 0 sent 0 again 0 decided 0
MEASURED 2978 applied 0 idle 0 refused 2978 sent 0 again 0 decided 0
PROCESSES 1
1 up 0 1 1 0 - 0 -'
try "$model" run report < greatest;     check "report, $(stat -c %s greatest) bytes" 0 "$all_refused"
{ head -c 40001 greatest; sleep 0.3; tail -c +40002 greatest; } | { try "$model" run report; echo "$status" > status; }
status=$(cat status);                   check "report, the same in two halves with a rest between" 0 "$all_refused"
try "$model" run report < just_too_long; check "report, one byte more" '*' 'BAD 10 0 0'

# Too much input
head -c 100000000 /dev/zero | { try "$model" run report; echo "$status" > status; }
status=$(cat status);                   check "report, 100 MB of NUL" '*' 'BAD 10 0 0'
{ cat "$example"; head -c 100000000 /dev/zero | tr '\0' '\n'; } 2> /dev/null | { try "$model" report; echo "$status" > status; }
status=$(cat status);                   check "model report, a schedule and 100 MB of line ends" 1 'BAD 10 0 0'
try "$model" run report < /dev/zero;    check "report, input without end" '*' 'BAD 10 0 0'
truncate -s 100M large
try "$model" run sweep large "$example"; check "sweep, a file of 100 MB and a good one" 0 "large
BAD 10 0 0
$example
$expected"

# NUL bytes
printf '\0' > nul
try "$model" run report < nul;          check "report, one NUL" '*' 'BAD 9 1 1'
{ cat "$example"; printf '\0'; } > nul
try "$model" run report < nul;          check "report, a NUL after the end" '*' 'BAD 9 12 1'
sed 's/^9$/9\x00/' "$example" > nul
try "$model" run report < nul;          check "report, a NUL in a value" '*' 'BAD 9 3 2'
sed 's/^E 3 2 1$/E 3 2\x001/' "$example" > nul
try "$model" report < nul;              check "model report, a NUL for a space" 1 'BAD 9 10 6'

# Standard output
: > out
timeout 10 "$model" run report < "$example" >&-;            status=$?; check "report, standard output closed" '*' ''
timeout 10 "$model" run report < "$example" > /dev/full;    status=$?; check "report, full disk" '*' ''
timeout 10 "$model" run sweep "$example" >&-;               status=$?; check "sweep, standard output closed" '*' ''
timeout 10 "$model" run sweep "$example" > /dev/full;       status=$?; check "sweep, full disk" '*' ''
timeout 10 "$model" report "$example" >&- 2> err;           status=$?; check "model report, standard output closed" 2 ''
timeout 10 "$model" report "$example" > /dev/full 2> err;   status=$?; check "model report, full disk" 2 ''
timeout 10 "$model" sweep "$example" >&- 2> err;            status=$?; check "model sweep, standard output closed" 2 ''
timeout 10 "$model" sweep "$example" > /dev/full 2> err;    status=$?; check "model sweep, full disk" 2 ''
timeout 10 "$model" steps "$example" >&- 2> err;            status=$?; check "model steps, standard output closed" 2 ''
timeout 10 "$model" steps "$example" > /dev/full 2> err;    status=$?; check "model steps, full disk" 2 ''
many=()
for ((i = 0; i < 400; i++)); do many+=("$example"); done
(trap '' XFSZ; ulimit -f 8; timeout 10 "$model" sweep "${many[@]}" > part 2> err); status=$?
check "model sweep, a file cut off by the size limit" 2 ''
timeout 10 "$model" run sweep "${many[@]}" | head -c 1 > /dev/null
status=${PIPESTATUS[0]}; [ "$status" -ne 124 ] && status=0; check "sweep, a reader that goes away" 0 ''
try "$model" run report < "$example" 2>&-;                  check "report, standard error closed" 0 "$expected"

# Files for sweep
mkdir folder
ln -s nowhere astray
ln -s loop loop
long_name=$(printf 'n%.0s' {1..300})
try "$model" run sweep folder missing astray loop "$long_name" '' "$example"
check "sweep, a folder, missing files, links to nothing, a name too long, an empty name" 0 "folder: cannot be read
missing: cannot be read
astray: cannot be read
loop: cannot be read
$long_name: cannot be read
: cannot be read
$example
$expected"
cp "$example" 'a name with spaces'
try "$model" run sweep 'a name with spaces';                check "sweep, a name with spaces" 0 "a name with spaces
$expected"
(ulimit -n 16; timeout 10 "$model" run sweep "${many[@]}" > out); status=$?
[ "$(grep -c '^PROCESSES' out)" -eq 400 ] && echo all > out;  check "sweep, 400 files and 16 open at most" 0 all
try "$model" report missing;                                check "model report, a missing file" 2 ''
try "$model" report folder;                                 check "model report, a folder" 2 ''
try "$model" report "$example";                             check "model report, a named file" 0 "$expected"

# Communication steps
bars='
0 of 2 decisions are of the warm-up

depth 2  decided 1  #
depth 3  decided 1  #'
try "$model" steps;                                         check "model steps, no files" 2 ''
try "$model" steps "$example"
check "model steps, a run in which two decide" 0 "$example  process 2  value 7  depth 2
$example  process 3  value 7  depth 3
$bars"
printf 'VALUES 1\n7\nWARMUP 0\nMEASURED 1\nQ 2\n' > undecided
try "$model" steps undecided;                               check "model steps, a run in which nobody decides" 0 'no process decided'
printf '\0' > nul
try "$model" steps nul;                                     check "model steps, a BAD file" 1 'nul: BAD 9 1 1
no process decided'
try "$model" steps folder missing '' nul 'a name with spaces' undecided
check "model steps, a folder, a missing file, an empty name, a BAD file, a name with spaces" 2 "folder: cannot be read
missing: cannot be read
: cannot be read
nul: BAD 9 1 1
a name with spaces  process 2  value 7  depth 2
a name with spaces  process 3  value 7  depth 3
$bars"
cp "$example" 'BAD 9 1 1'
cp "$example" 'x: cannot be read'
try "$model" steps 'BAD 9 1 1' x 'x: cannot be read'
check "model steps, names like the lines of an answer" 2 'BAD 9 1 1          process 2  value 7  depth 2
BAD 9 1 1          process 3  value 7  depth 3
x: cannot be read
x: cannot be read  process 2  value 7  depth 2
x: cannot be read  process 3  value 7  depth 3

0 of 4 decisions are of the warm-up

depth 2  decided 2  ##
depth 3  decided 2  ##'
# One process decides at 1 in round 0 and at 5 in round 2.
printf 'VALUES 1\n7\nWARMUP 0\nMEASURED 1\nE 1 1 0\n' > one
printf 'VALUES 1\n7\nWARMUP 0\nMEASURED 7\nQ 1\nS 1 1 0\nF 1 1 0\nQ 1\nS 1 1 1\nF 1 1 1\nE 1 1 2\n' > five
fifty=$(printf '#%.0s' {1..50})
try "$model" steps "${many[@]}" one five
tail -n 5 out > part && mv part out;                        check "model steps, bars of 50 characters, of 1 and of none" 0 "depth 1  decided   1  #
depth 2  decided 400  $fifty
depth 3  decided 400  $fifty
depth 4  decided   0
depth 5  decided   1  #"
# In round 4 it decides at 9.
{
  printf 'VALUES 1\n7\nWARMUP 0\nMEASURED 13\n'
  for r in 0 1 2 3; do printf 'Q 1\nS 1 1 %d\nF 1 1 %d\n' $r $r; done
  printf 'E 1 1 4\n'
} > nine
try "$model" steps one nine
tail -n 3 out > part && mv part out;                        check "model steps, many depths at which nobody decides" 0 "depth 1  decided 1  #
depth 2 to 8  decided 0
depth 9  decided 1  #"

# What is sent again: after a crash, in both sections, and not by a cut
relays='VALUES 3\n7\n9\n5\nWARMUP 4\nE 2 1 0\nC 2\nR 2\nE 2 1 0\nMEASURED 4\nC 2\nR 2\nE 2 1 0\nE 2 2 0\n'
printf "$relays" > again
sent_again='WARMUP 4 applied 4 idle 0 refused 0 sent 2 again 1 decided 0
MEASURED 4 applied 4 idle 0 refused 0 sent 2 again 1 decided 1
PROCESSES 3
1 up 0 1 1 7 - 0 -
2 up 0 1 1 7 7 2 2
3 up 0 1 3 5 - 0 -'
try "$model" report again;                                  check "model report, a relay that is handed over again" 0 "$sent_again"
printf "${relays%E 2 1 0*}E 2 1 0 X\nR 2\n" > kept_back
try "$model" report kept_back;                              check "model report, a repeated relay that is cut" 0 'WARMUP 4 applied 4 idle 0 refused 0 sent 2 again 1 decided 0
MEASURED 4 applied 4 idle 0 refused 0 sent 0 again 0 decided 0
PROCESSES 3
1 up 0 1 1 7 - 0 -
2 up 0 1 1 7 - 3 -
3 up 0 1 3 5 - 0 -'
try "$model" steps again;                                   check "model steps, a run in which a relay is handed over again" 0 'again  process 2  value 7  depth 2

0 of 1 decisions are of the warm-up

depth 2  decided 1  #'
# Counts of four digits: sixteen processes crash, come back and relay again, 80 times
{
  printf 'VALUES 16\n'
  seq 16
  printf 'WARMUP 15\n'
  for p in {2..16}; do echo "E $p 1 0"; done
  printf 'MEASURED 3840\n'
  for ((i = 0; i < 80; i++)); do for p in {1..16}; do printf 'C %d\nR %d\nE %d 1 0\n' $p $p $p; done; done
} > load
try "$model" report load
head -n 2 out > part && mv part out;                        check "model report, 1,200 relays that are handed over again" 0 'WARMUP 15 applied 15 idle 0 refused 0 sent 15 again 0 decided 0
MEASURED 3840 applied 3840 idle 0 refused 0 sent 1200 again 1200 decided 0'

# said TEXT..: standard error of the last try has these words; else the next check fails.
said() { local word; for word in "$@"; do grep -qF -- "$word" err || echo "standard error lacks: $word" >> out; done; }
# quiet_but COUNT: it has at most so many lines.
quiet_but() { [ "$(wc -l < err)" -le "$1" ] || echo "standard error has $(wc -l < err) lines" >> out; }

# One rule for the status: 1 for a BAD file, 2 for one that cannot be read
try "$model" sweep nul "$example";                          check "model sweep, a BAD file and a good one" 1 "nul
BAD 9 1 1
$example
$expected"
try "$model" sweep nul missing folder '' "$example"
said 'missing: there is no such file' 'folder: is a folder'
check "model sweep, files that cannot be read, and why" 2 "nul
BAD 9 1 1
missing: cannot be read
folder: cannot be read
: cannot be read
$example
$expected"
try "$model" steps astray missing; said 'astray: is a link to nothing' 'missing: there is no such file'
check "model steps, files that cannot be read, and why" 2 'astray: cannot be read
missing: cannot be read
no process decided'
cp one $'b\377'
try "$model" sweep $'b\377' one; said 'has a name that is not UTF-8'
check "model sweep, a name that is not UTF-8" 2 $'b\377: cannot be read'"
one
$(sed -n '2,$p' <<< "$("$model" run sweep one)")"
try "$model" report < $'b\377';                             check "model report, the same through standard input" 0 "$(sed -n '2,$p' <<< "$("$model" run sweep one)")"
# The warm-up's decisions
printf 'VALUES 1\n7\nWARMUP 1\nE 1 1 0\nMEASURED 0\n' > early
try "$model" steps early one;                               check "model steps, a decision of the warm-up" 0 'early  process 1  value 7  depth 1
one    process 1  value 7  depth 1

1 of 2 decisions are of the warm-up, and are counted below:
  1 in early

depth 1  decided 2  ##'
# Names
long=$(printf 'n%.0s' {1..5000})
try "$model" steps "$long" one;                             check "model steps, a name of 5,000 bytes" 2 "${long:0:4096}: cannot be read
one  process 1  value 7  depth 1

0 of 1 decisions are of the warm-up

depth 1  decided 1  #"
cp one 'ünïcödé'
cp one ./-dash
try "$model" steps -- 'ünïcödé' one -dash;                  check "model steps, names that are not ASCII, and one behind --" 0 'ünïcödé  process 1  value 7  depth 1
one      process 1  value 7  depth 1
-dash    process 1  value 7  depth 1

0 of 3 decisions are of the warm-up

depth 1  decided 3  ###'
try "$model" report - < "$example";                         check "model report, - for standard input" 0 "$expected"
try "$model" sweep - one < "$example";                      check "model sweep, - for standard input" 0 "/dev/stdin
$expected
one
$(sed -n '2,$p' <<< "$("$model" run sweep one)")"
try "$model" sweep - - < "$example"; said 'standard input is named twice'; check "model sweep, standard input twice" 2 ''
try "$model" report -x; said 'report has no option -x';     check "model report, an option that it has not" 2 ''
try "$model" report one five; said 'report takes one file'; check "model report, two files" 2 ''
try "$model" frobnicate; said 'there is no word frobnicate'; check "model, a word that it has not" 2 ''
try "$model" compare 0 1; said '0 is no count';             check "model compare, a count of 0" 2 ''
try "$model" compare 5 1 --error none; said 'knows no error none'; check "model compare, an error that it has not" 2 ''
columns='column-one-too-small column-of-the-number column-0-for-a-missing-line count-at-the-line end-at-the-last-byte'
for error in again-not-counted cut-counts first-counts-as-again again-after-writing sent-without-repeats $columns; do
  try "$model" compare 0 1 --error $error; said '0 is no count'; check "model compare, the error $error is known" 2 ''
done
# Help and version
try "$model" help steps; grep -q '^model steps' out && echo steps > out; check "model help steps" 0 steps
try "$model" sweep --help; grep -q '^model sweep' out && echo sweep > out; check "model sweep --help" 0 sweep
try "$model" --version; grep -q '^commit ' out && grep -qF "$(rt version)" out && echo version > out; check "model --version" 0 version
# What cannot be written
timeout 10 "$model" report missing > out 2>&-; status=$?;   check "model report, a missing file, standard error closed" 2 ''
timeout 10 "$model" > /dev/full 2> err; status=$?; : > out; check "model, full disk" 2 ''
# A reader that goes away
for word in sweep steps; do
  timeout 10 "$model" $word "${many[@]}" 2> err | head -n 1 > out; status=0
  quiet_but 0
  check "model $word, a reader that goes away" 0 "$([ $word = sweep ] && echo "$example" || echo "$example  process 2  value 7  depth 2")"
done
# Columns: in the greatest line of the form, in a line as long as a file, and ahead of a missing LF
printf 'VALUES 1\n7\nWARMUP 1\nE 4294967295 4294967295 4294967295 X' > far
try "$model" report far;                                    check "model report, the file ends inside the longest line" 1 'BAD 9 4 37'
printf 'X\nMEASURED 0\n' >> far
try "$model" report far;                                    check "model report, a letter behind the longest line" 1 'BAD 9 4 37'
{ printf 'VALUES 1\n'; head -c 65526 /dev/zero | tr '\0' 7; } > long_line
try "$model" report long_line;                              check "model report, a number of 65,526 digits" 1 'BAD 9 2 10'
head -c 65535 /dev/zero | tr '\0' ' ' > blank
try "$model" report blank;                                  check "model report, 65,535 spaces" 1 'BAD 9 1 1'
head -c -2 "$example" > open_end
try "$model" report open_end;                               check "model report, the last number is missing" 1 'BAD 9 11 5'
printf ' 2' >> open_end
try "$model" report open_end;                               check "model report, two spaces and no LF" 1 'BAD 9 11 5'
# What is wrong with a file, where standard error is a terminal, and the line with a mark under the column
printf 'VALUES 1\r\n7\r\n' > crlf
printf 'VALUES 1\n7\nWARMUP 0\n' > short
printf 'VALUES 1\n7\nWARMUP 0\nMEASURED 0' > open_end
printf 'VALUES 17\n' > many_values
printf 'VALUES 1\n7\nWARMUP 9999\n' > many_steps
printf 'VALUES 1\n7\nWARMUP 1\nE\t1 1 0\n' > tab
printf 'VALUES 1\n7\nWARMUP 1\nE 1  1 0\n' > spaces
printf 'VALUES 1\n7\nWARMUP 1\nE 1 1 0 \n' > space_behind
printf 'VALUES 1\n7\nWARMUP 1\nE 1 1\n' > number_missing
printf 'VALUES 1\n7\nWARMUP 1\nP 1 X\n' > cut_of_a_pause
printf 'VALUES 1\n07\n' > leading_zero
printf 'VALUES 2\n7\nWARMUP 0\n' > value_missing
printf 'VALUES 1\n7\n9\n' > value_more
printf 'VALUES 1\n\n7\n' > empty_line
printf 'VALUES 1\n7\nWARMUP 0\nMEASURED 1\nX\n' > no_step
printf 'VALUES 1\n7\nWARMUP 1\nQ 1\nMEASURED 0\n\n' > line_behind
printf 'VALUES 1\n7\nWARMUP 1\nE 1 \303\244 \033[31m\0\177\n' > odd_bytes
# on_a_terminal ARGUMENT..: model with standard output and standard error on a terminal, into the file out.
on_a_terminal() { timeout 10 script -qec "'$model' $*" /dev/null < /dev/null | tr -d '\r' > out; status=${PIPESTATUS[0]}; }
# shown NAME 'BAD ..' PHRASE [TEXT MARK]: what report, sweep and steps say of the file on a terminal.
shown() {
  local number line column hint=$1 word
  read -r number line column <<< "${2#BAD }"
  [ "$line" = 0 ] || hint+=:$line:$column
  hint+=": $3; see docs/FORMAT.md"
  [ $# -eq 3 ] || hint+=$'\n'"    $4"$'\n'"    $5"
  on_a_terminal report "$1"; check "model report, on a terminal: $1" 1 "$2
$hint"
  on_a_terminal sweep "$1";  check "model sweep, on a terminal: $1" 1 "$1
$2
$hint"
  on_a_terminal steps "$1";  check "model steps, on a terminal: $1" 1 "$1: $2
no process decided
$hint"
}
if command -v script > /dev/null; then
  between='one space stands between two words, and none before or behind them'
  shown crlf           'BAD 9 1 9'  'this line ends in CR LF' \
    'VALUES 1?' \
    '        ^'
  shown short          'BAD 9 4 1'  'this line is missing'
  shown open_end       'BAD 9 4 11' 'the last line does not end in LF' \
    'MEASURED 0' \
    '          ^'
  shown many_values    'BAD 1 1 8'  'there must be 1 to 16 values' \
    'VALUES 17' \
    '       ^'
  shown many_steps     'BAD 10 3 8' 'this count takes the steps above 4,096' \
    'WARMUP 9999' \
    '       ^'
  shown just_too_long  'BAD 10 0 0' 'the file has more than 65,535 bytes'
  shown tab            'BAD 9 4 2'  'there is a tab in this line' \
    'E?1 1 0' \
    ' ^'
  shown spaces         'BAD 9 4 5'  "$between" \
    'E 1  1 0' \
    '    ^'
  shown space_behind   'BAD 9 4 9'  "$between" \
    'E 1 1 0 ' \
    '        ^'
  shown number_missing 'BAD 9 4 6'  'this line ends too early' \
    'E 1 1' \
    '     ^'
  shown cut_of_a_pause 'BAD 9 4 4'  'only E, S, F, Z and Q can be cut' \
    'P 1 X' \
    '   ^'
  shown leading_zero   'BAD 9 2 2'  'a number has no leading zeros' \
    '07' \
    ' ^'
  shown value_missing  'BAD 9 3 1'  'this line should be a value' \
    'WARMUP 0' \
    '^'
  shown value_more     'BAD 9 3 1'  'this line should be the WARMUP line' \
    '9' \
    '^'
  shown empty_line     'BAD 9 2 1'  'this line is empty' \
    '' \
    '^'
  shown no_step        'BAD 9 5 1'  'this line should be a step' \
    'X' \
    '^'
  shown line_behind    'BAD 9 6 1'  'nothing follows the last step' \
    '' \
    '^'
  shown odd_bytes      'BAD 9 4 5'  'this line breaks the form' \
    'E 1 ?? ?[31m??' \
    '    ^'
  shown far            'BAD 9 4 37' 'this line breaks the form' \
    'E 4294967295 4294967295 4294967295 XX' \
    '                                    ^'
  shown long_line      'BAD 9 2 10' 'this number is above 4,294,967,295' \
    "$(printf '7%.0s' {1..77}) .." \
    '         ^'
  # Standard input, and two files
  mark='    E?1 1 0
     ^'
  on_a_terminal report '< tab'
  check "model report, on a terminal: standard input" 1 "BAD 9 4 2
standard input:4:2: there is a tab in this line; see docs/FORMAT.md
$mark"
  on_a_terminal sweep '- < tab'
  check "model sweep, on a terminal: standard input" 1 "/dev/stdin
BAD 9 4 2
/dev/stdin:4:2: there is a tab in this line; see docs/FORMAT.md
$mark"
  cp tab ./-tab
  on_a_terminal report '-- -tab'
  check "model report, on a terminal: a name that begins with -" 1 "BAD 9 4 2
-tab:4:2: there is a tab in this line; see docs/FORMAT.md
$mark"
  on_a_terminal steps 'short one tab'
  sed -n '/short:4:1/,$p' out > part && mv part out
  check "model steps, on a terminal: two BAD files" 1 "short:4:1: this line is missing; see docs/FORMAT.md
tab:4:2: there is a tab in this line; see docs/FORMAT.md
$mark"
  on_a_terminal report 'tab > part'
  { cat part; cat out; } > both && mv both out
  check "model report, standard error alone on a terminal" 1 "BAD 9 4 2
tab:4:2: there is a tab in this line; see docs/FORMAT.md
$mark"
fi
try "$model" report crlf; quiet_but 0;                      check "model report, not on a terminal" 1 'BAD 9 1 9'
for word in sweep steps; do
  try "$model" $word tab; quiet_but 0
  check "model $word, not on a terminal" 1 "$([ $word = sweep ] && printf 'tab\nBAD 9 4 2' || printf 'tab: BAD 9 4 2\nno process decided')"
done

# compare says what it does, and leaves nothing behind where it is stopped
if command -v rustc > /dev/null; then
  mkdir temporary
  TMPDIR=$work/temporary timeout 60 "$model" compare 5 1 > out 2> err; status=$?
  said 'generating 5 schedules'
  tail -n 1 out > part && cat err > /dev/null && mv part out; check "model compare" 0 '5 passed, 0 failed'
  for error in $columns; do
    TMPDIR=$work/temporary timeout 60 "$model" compare 200 1 --error $error > out 2> err; status=$?
    grep -q '^first difference' out && echo caught > out;   check "model compare, the error $error" 1 caught
  done
  (TMPDIR=$work/temporary exec "$model" compare 200000 1 > /dev/null 2> err) &
  pid=$!
  for ((i = 0; i < 100; i++)); do grep -q generating err && break; sleep 0.05; done
  sleep 0.3
  kill -TERM $pid; wait $pid; status=$?
  { ls temporary; pgrep -f "$work/temporary" || :; } > out; check "model compare, stopped" 143 ''
fi

# Building, with a stand-in for the toolchain: its prover says a few lines and makes a script of a source
kit=$work/kit checkout=$work/checkout
mkdir -p "$kit/bin" "$checkout/crates/report/src" "$checkout/crates/below/specs"
echo 'stand-in 1' > "$kit/version"
cat > "$kit/bin/rt" << 'END'
#!/usr/bin/env bash
kit=$(dirname "$(dirname "$(readlink -f "$0")")")
[ "$1" != version ] || { cat "$kit/version"; exit; }
[ "$*" = run ] || { echo "rt: no such command"; exit 2; }
name=${PWD##*/}
echo "./proofs/a/Answers.antt:1:1: note: something that looks like an error"
echo "rt: chose --jobs 2 for below"
echo $$ >> "$kit/builds"
[ ! -e "$kit/slow" ] || sleep 30
! grep -q BROKEN src/main.rt || { echo "logic=not-proved"; exit 1; }
mkdir -p out
printf '#!/usr/bin/env bash\necho "made of %s"\n' "$(cat src/main.rt ../below/specs/* | tr '\n' ' ' | sed 's/ $//')" > "out/$name"
chmod +x "out/$name"
echo "rt: running out/$name"
END
chmod +x "$kit/bin/rt"
cp "$model" "$checkout/model"
printf 'below:\nreport: below\n' > "$checkout/crates.txt"
echo one > "$checkout/crates/report/src/main.rt"
echo low > "$checkout/crates/below/specs/Lib.antt"
builds() { wc -l < "$kit/builds"; }
built() { PATH=$kit/bin:$PATH try "$checkout/model" report < /dev/null; }
: > "$kit/builds"
built; said 'not built yet' 'below is being proved' 'build-report.log'; quiet_but 4; check "model, the first build" 0 'made of one low'
built; quiet_but 0; builds >> out;                          check "model, built already" 0 'made of one low
1'
echo two > "$checkout/crates/report/src/main.rt"
built; said 'made of other sources';                        check "model, another source" 0 'made of two low'
echo lower > "$checkout/crates/below/specs/Lib.antt"
built; said 'made of other sources';                        check "model, another definition below" 0 'made of two lower'
printf 'below:\n\nreport: below\n' > "$checkout/crates.txt"
built; said 'made of other sources';                        check "model, another crates.txt" 0 'made of two lower'
echo 'stand-in 2' > "$kit/version"
built; said 'made of other sources';                        check "model, another toolchain" 0 'made of two lower'
: > "$checkout/target/bin/report"
built; said 'made of other sources'; builds >> out;         check "model, a truncated program" 0 'made of two lower
6'
# The program of this source says in which folder it runs
echo '$PWD' > "$checkout/crates/report/src/main.rt"
mkdir elsewhere
(cd elsewhere && PATH=$kit/bin:$PATH timeout 10 "$checkout/model" run report < /dev/null > ../out 2> ../err); status=$?
said 'made of other sources';                               check "model, built on the way, in the caller's folder" 0 "made of $work/elsewhere lower"
echo BROKEN > "$checkout/crates/report/src/main.rt"
built; said 'could not be built';                           check "model, a broken source" 2 ''
echo two > "$checkout/crates/report/src/main.rt"
rm -rf "$checkout/target"
: > "$kit/builds"
PATH=$kit/bin:$PATH timeout 20 "$checkout/model" report < /dev/null > first 2> /dev/null &
PATH=$kit/bin:$PATH timeout 20 "$checkout/model" report < /dev/null > second 2> /dev/null &
wait
status=0
{ cat first second; builds; } > out;                        check "model, two first calls at once" 0 'made of two lower
made of two lower
1'
rm -rf "$checkout/target"
: > "$kit/slow"
: > "$kit/builds"
PATH=$kit/bin:$PATH "$checkout/model" report < /dev/null > /dev/null 2> err &
pid=$!
for ((i = 0; i < 100; i++)); do [ -s "$kit/builds" ] && break; sleep 0.05; done
kill -TERM $pid; wait $pid; status=$?
sleep 0.2
: > out
case $(ps -o stat= -p "$(cat "$kit/builds")") in '' | Z*) ;; *) echo 'the prover goes on' > out ;; esac
check "model, stopped while it builds" 143 ''
rm -f "$kit/slow"

# A file without read permission, as a user who is not root
cp "$example" secret
chmod 000 secret
chmod 755 "$work"
chmod 666 out
as_user=()
if [ "$(id -u)" -eq 0 ]; then
  if command -v setpriv > /dev/null; then as_user=(setpriv --reuid=65534 --regid=65534 --clear-groups --); fi
fi
if [ "$(id -u)" -eq 0 ] && [ ${#as_user[@]} -eq 0 ]; then
  echo "skipped a file without read permission: run as root, and setpriv is not here"
elif ! ${as_user[@]+"${as_user[@]}"} test -r "$example" -a -x "$model"; then
  echo "skipped a file without read permission: another user cannot reach this folder"
else
  cp "$example" open
  chmod 644 open
  timeout 10 ${as_user[@]+"${as_user[@]}"} "$model" run sweep secret open > out; status=$?
  check "sweep, a file without read permission and a good one" 0 "secret: cannot be read
open
$expected"
  rm -rf "$checkout/target"
  PATH=$kit/bin:$PATH timeout 10 ${as_user[@]+"${as_user[@]}"} "$checkout/model" report < /dev/null > out 2> err; status=$?
  said 'cannot be written'; quiet_but 1
  check "model, not built, in a folder that cannot be written" 2 ''
  timeout 10 ${as_user[@]+"${as_user[@]}"} "$model" report secret > out 2> err; status=$?
  check "model report, a file without read permission" 2 ''
  timeout 10 ${as_user[@]+"${as_user[@]}"} "$model" steps secret open > out 2> err; status=$?
  check "model steps, a file without read permission and a good one" 2 "secret: cannot be read
open  process 2  value 7  depth 2
open  process 3  value 7  depth 3
$bars"
fi

echo "$passed passed, $failed failed"
[ "$failed" -eq 0 ]
