# Functions of the cases: filters, texts that are made by a rule, and what takes more than one call.

# ---- filters

# Of a trace, its horizon and the moments at which transmissions start.
starts() { sed -n 's/^HORIZON //p; s/^TX \([0-9]*\) .*/\1/p' | paste -sd ' '; }
# Of a periodic table, the offsets.
offsets() { sed -n 's/.* AT //p' | paste -sd ' '; }
# Of facts, their margins; and the level by margins of a table where oscillators are off by up to 50 millionths.
levels() {
  grep -o '"margins":{[^}]*}'
  bus629 margins "$1" --clocks 50ppm | sed -n '1s/MARGINS [a-z]* \([a-z]*\) .*/\1/p'
}
# Of a save file, its moments and the groups that are open.
opened() { awk '/^\*|^\[timestart/ { print } before == "@800200" { print } { before = $0 }'; }
# compared WORDS: whether a view is that of these words.
compared() {
  bus629-view "$@" >.compared
  [ -s .compared ] && cmp - .compared && echo "the same, and not empty"
}
# Of a picture, the findings in its heading and at its marks.
found() { grep -o 'class="answer"[^<]*\|<title>FAULT[^<]*' | sed 's/.*>//' | sort -u; }
# Of a picture, what its heading says of what is heard and of what is sent, and how often an audit speaks.
heard() {
  cat >.picture
  grep -o 'class="answer"[^<]*\|[0-9]* garbled[^<]*<' .picture | sed 's/.*>//; s/<//' | grep -v '^ *garbled'
  grep -c 'LAWFUL\|BREACH\|first breach\|class="breach"' .picture
}
# Of a page, its heading, its verdict line and checksum, and how often a script or a file is named.
headed() {
  cat >.page
  grep -o '<h1[^<]*\|<p><code>[^<]*\|bytes</dt><dd>[^<]*' .page | sed 's/.*>//'
  grep -c '<script\|src=\|href=' .page
}
# Of a page, its sentences.
said() { sed -n '/^<pre class="said">/,/^<\/pre>/{s/^<pre class="said">//;/^<\/pre>/d;p}'; }
# How many bytes there are, and the beginning of their SHA-256.
digest() {
  cat >.digested
  echo "$(wc -c <.digested) $(sha256sum .digested | head -c 16)"
}

# ---- texts

# N times PART.
times() { for _ in $(seq 1 "$1"); do printf '%s' "$2"; done; }
# Two rounds of the senders 1 and 2, of so many words 0 each.
two_rounds() {
  echo 'MESSAGES 1'
  for _ in 1 2; do printf 'MSG 1 :%s\nMSG 2 :%s\n' "$(times "$1" ' 0000')" "$(times "$2" ' 0000')"; done
}
# N bytes, all the same.
bytes() { head -c "$1" /dev/zero | tr '\0' "$2"; }
# The table of a drill.
drilled() {
  local senders=$((2 + $1 % 30)) i
  printf 'TABLE 1\nMODE aperiodic\nTI %d\nSG 300\n' $((300 + senders * 620 + 8 * senders + 2 * senders * (senders - 1)))
  for i in $(seq 1 "$senders"); do
    printf 'SENDER %d TG %d\nSEND %03X %X 30 40\n' "$i" $((8 + 4 * (i - 1))) $((256 + i)) $((i % 16))
  done
}
# A periodic table of this interval: of each further word, GAP,OFFSET,LEAST,MOST, a sender with its words.
periodic() {
  local sender number=0 gap offset least most
  printf 'TABLE 1\nMODE periodic\nTI %d\nSG 300\n' "$1"
  for sender in "${@:2}"; do
    IFS=, read -r gap offset least most <<<"$sender"
    printf 'SENDER %d TG %d AT %d\nSEND %03d 0 %d %d\n' $((number += 1)) "$gap" "$offset" "$number" "$least" "$most"
  done
}
# An aperiodic table of this interval and synchronization gap: of each further word a sender of one word with that terminal gap.
aperiodic() {
  local gap number=0
  printf 'TABLE 1\nMODE aperiodic\nTI %d\nSG %d\n' "$1" "$2"
  for gap in "${@:3}"; do printf 'SENDER %d TG %d\nSEND %03d 0 1 1\n' $((number += 1)) "$gap" "$number"; done
}
# A trace of more than 67,108,865 bytes, which doesn't end.
transmissions() {
  awk 'BEGIN {
    print "TRACE 1\nHORIZON 1099511627776"
    for (moment = 1000000000; moment < 1002581110; moment++) print "TX " moment " 1\nWS L00100"
  }'
}
# behind HELD LAST: that trace, cut to whole transmissions, whose last line begins four bytes before the limit where HELD has five digits.
behind() {
  printf 'TRACE 1\nHORIZON 1099511627776\nHOLD 1 0\nHOLD 2 %s\n' "$1"
  tail -n +3 transmissions | head -c 67108808
  echo "$2"
}

# ---- calls

# check TABLE, of a copy that may not be read, as someone else where this is the administrator.
locked() {
  cp -L "$1" locked
  chmod 000 locked
  if [ "$(id -u)" != 0 ]; then
    bus629 check locked
    return
  fi
  chmod 755 .
  cp -L .programs/bus629 program
  setpriv --reuid=65534 --regid=65534 --clear-groups ./program check locked
}
# Of each run of the examples that is accepted, whether unwave of its wave is its trace.
unwaved() {
  local table messages runs=0 same=0
  for table in *.table; do
    for messages in *.messages; do
      bus629 run "$table" "$messages" >ran 2>/dev/null || continue
      bus629 wave "$table" ran >ran.wave
      runs=$((runs + 1))
      cmp -s <(sed '/^RECEIVED/,$d' ran) <(bus629 unwave "$table" ran.wave) && same=$((same + 1))
    done
  done
  [ $same = $runs ] && [ $runs -gt 10 ] && echo "all of more than 10"
}
# cut_each TRACE LENGTH BYTE..: how many fronts of a trace are refused at the last of these bytes that they have.
cut_each() {
  local length said begun=0 refused=0
  for length in $(seq 0 $(($2 - 1))); do
    [[ " ${*:3} " == *" $length "* ]] && begun=$length
    said=$(bus629 audit with_receivers.table <(head -c "$length" "$1") 2>&1)
    [ "$? $said" = "4 ERROR 4 trace byte $begun Ended" ] && refused=$((refused + 1))
  done
  echo "$refused of $2"
}
# refused_memory TEST WORDS: a call with the least memory in which it is refused some, and this test of its errors in the file err holds.
refused_memory() {
  local limit status
  for limit in $(seq 2800 100 9000); do
    { prlimit --as=$((limit * 1024)) bus629 "${@:2}" 2>err; } 2>/dev/null
    status=$?
    [ $status = 7 ] && eval "$1" && break
  done
  cat err >&2
  return $status
}
# behind_trace TABLE TRACE FORM WORDS: a view of this form, with these words behind the trace.
behind_trace() { bus629-view "$3" "$1" "$2" "${@:4}"; }
# ignored BEHIND: of how many pictures a text behind the trace changes nothing.
ignored() {
  local words same=0
  cat on_cable.trace >followed
  printf '%b' "$1" >>followed
  for words in svg 'svg --to 150bt' cycles 'cycles --to 150bt'; do
    behind_trace idle_listener.table on_cable.trace $words >.alone || return
    behind_trace idle_listener.table followed $words >.followed || return
    cmp -s .followed .alone && same=$((same + 1))
  done
  echo "$same of 4 pictures are that of the trace alone"
}

# ---- the launcher

# A tree with the launcher and no program, and a stand-in for the toolchain.
planted() {
  mkdir -p tree/crates/bus629/src tree/crates/bus_tool/src tree/crates/bus_view/src tree/scripts tree/docs tree/examples tools
  cp "$HERE/bus629" "$HERE/bus629-view" tree/
  cp "$HERE/scripts/launch" tree/scripts/launch
  cp "$HERE/docs/bus629.help" "$HERE/docs/bus629-view.help" "$HERE/docs/bus629.1" tree/docs/
  cp "$HERE"/docs/{RULES,PLAN,RECORD,FORMATS,PICTURES,CLAIMS}.md tree/docs/
  cp "$HERE/crates/bus_tool/src/itself.rt" tree/crates/bus_tool/src/
  cp "$HERE/crates/bus_view/src/itself.rt" tree/crates/bus_view/src/
  cp -r "$HERE/scripts/completions" tree/scripts/
  touch tree/crates.txt tree/crates/bus629/src/main.rt
  install -m 755 "$HERE/cases/data/stand_in" tools/rt
}
# launch WORDS: the launcher of that tree with these words; what it says of files is without their folder.
launch() {
  local status
  : >handed
  rm -f asked
  WORK=$PWD PATH=$PWD/tools:$PATH tree/bus629 "$@" 2>.launched
  status=$?
  sed "s#$PWD/##g" .launched >&2
  return $status
}
# launch_anew WORDS: the same where no quick build is kept, nor can be.
launch_anew() {
  rm -rf tree/out
  NOTHING_KEPT=1 launch "$@"
}
# Each command of a transcript, run where copies of the examples are, and all that it writes; their statuses are left in .statuses.
transcript() {
  rm -rf .told && mkdir .told && cp ./*.table ./*.messages ./*.cable ./*.trace .told
  (cd .told && grep '^\$ ' "../$1" | while read -r _ command; do
    printf '$ %s\n' "$command" && eval "$command"
    echo $? >&3
  done) 3>.statuses
}
# two_words HORIZON MOMENT,TERMINAL ..: what is recorded of terminals 1 and 2 whose messages have a label word and a data word.
two_words() {
  printf '%s\n' 'TRACE 1' "HORIZON $1"
  for start in "${@:2}"; do
    printf 'TX %s %s\nWS L00%s00 D00001\n' "${start%,*}" "${start#*,}" "${start#*,}"
  done
  echo END
}

# ---- five periodic terminals in another order, or with lengths that vary less

# in_order TERMINAL ..: their table, planned for a delay of 5, with offsets in this order.
in_order() {
  awk -v order="$*" 'BEGIN { n = split(order, place); for (i = 1; i <= n; i++) at[place[i]] = i } /^SENDER/ { $6 = at[$2] } { print }' \
    five_terminals_periodic.table >.ordered
  bus629 plan .ordered --delay 5bt
}
# rooms_of_intervals TI ..: what margins of them tells at these intervals.
rooms_of_intervals() {
  local ti
  in_order 1 2 3 4 5 >/dev/null
  for ti in "$@"; do
    bus629 plan <(sed "s/TI 4000/TI $ti/" .ordered) --delay 5bt >.planned
    echo "TI $ti" $(bus629 margins .planned --delay 1000ns --jitter 125ns --clocks 100ppm | awk '/ sync| order| begin/ { print $2, $NF }')
  done
}
# rooms_of_order TERMINAL ..: the level and the room of order where terminal 3 has 4, 9 or 10 words at least.
rooms_of_order() {
  local least
  for least in 4 9 10; do
    in_order "$@" | sed "s/103 1 4 12/103 1 $least 12/" >.padded
    echo "$*: $least" $(bus629 margins .padded --delay 1000ns --jitter 125ns --clocks 100ppm | awk '/^MARGINS/ { print $3 } / order/ { print $NF }')
  done
}
