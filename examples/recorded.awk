# Makes a trace of format 1 of what a monitor recorded: awk -f recorded.awk recorded.csv > recorded.trace
# A line of it has the nanoseconds at which a transmission was heard to begin, its terminal, and its words with a space between: a label word
# as L and four hexadecimal digits, a data word as D and four. The first line may be a heading that begins with a letter; empty lines and those that begin with # are
# passed over, and any other stops it, since of a recording nothing may be missing. Moments count from the first start, and what begins in one
# bit time, as in a collision, goes by terminals, as a trace has it: hence the sort.
function parity(word,   i, ones) {
  for (i = 2; i <= 5; i++) ones += substr("0112122312232334", index("0123456789ABCDEF", substr(word, i, 1)), 1)
  return 1 - ones % 2
}
function is_recorded(   w) {
  if (NF != 3 || $1 !~ /^[0-9]+(\.[0-9]+)?$/ || $2 !~ /^[0-9]+$/) return 0
  words_here = split(toupper($3), words, " ")
  for (w = 1; w <= words_here; w++) if (words[w] !~ /^[LD][0-9A-F][0-9A-F][0-9A-F][0-9A-F]$/) return 0
  return words[1] ~ /^L/
}
BEGIN {
  FS = ","
  sorted = "sort -n -k 1,1 -k 2,2 | cut -d '|' -f 2- | tr '|' '\\n'"
}
{ sub(/\r$/, "") }
/^ *$/ || /^#/ || NR == 1 && /^[A-Za-z]/ { next }
!is_recorded() {
  print "recorded.awk: line " NR " is no recorded transmission: " $0 > "/dev/stderr"
  failed = 1
  exit 1
}
{
  moments[++count] = int($1 / 500)
  if (count == 1 || moments[count] < first) first = moments[count]
  terminals[count] = $2
  bits = -4
  for (w = 1; w <= words_here; w++) {
    bits += words[w] ~ /^L/ ? 24 : 20
    lines[count] = lines[count] (words[w] ~ /^L/ ? "|WS " : " ") words[w] parity(words[w])
  }
  if (moments[count] + bits > horizon) horizon = moments[count] + bits
}
END {
  if (failed) exit 1
  printf "-1 0|TRACE 1|HORIZON %.0f\n", horizon - first | sorted
  for (i = 1; i <= count; i++) {
    moment = sprintf("%.0f", moments[i] - first)
    printf "%s %d|TX %s %d%s\n", moment, terminals[i], moment, terminals[i], lines[i] | sorted
  }
  close(sorted)
  print "END"
}
