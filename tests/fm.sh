#!/bin/sh
# fm.sh: tests ./fm with good and bad words: each sentence, each status, and what is written or left alone. Prints a line
# for each failure, and at the end how many passed.
set -u
LC_ALL=C
export LC_ALL
root=$(cd "$(dirname "$0")/.." && pwd -P)
room=${TMPDIR:-/tmp}/fm-test.$$
mkdir "$room" || exit 1
trap 'chmod -R u+rwx "$room"; rm -rf "$room"' EXIT
trap 'exit 1' HUP INT TERM
cd "$room" || exit 1
fm=$root/fm
path=$PATH
passed=0 failed=0

pass() { passed=$((passed + 1)); }

miss() { # SENTENCE
    failed=$((failed + 1))
    printf 'FAILED: %s\n' "$(printf '%s' "$1" | tr '\n' '/')"
}

# Runs fm with WORDS: it must end with STATUS and say, on both outputs, what stands on standard input.
try() { # STATUS WORDS
    want=$(cat) status=$1
    shift
    got=$(PATH=$path "$fm" "$@" 2>&1 </dev/null)
    ended=$?
    if [ "$ended" -ne "$status" ]; then
        miss "fm $*: status $ended, not $status: $got"
    elif [ "$got" != "$want" ]; then
        miss "fm $*: says: $got"
    else
        pass
    fi
}

# A condition that must hold.
hold() { # SENTENCE CONDITION
    sentence=$1
    shift
    if "$@"; then pass; else miss "$sentence"; fi
}

absent() { [ ! -e "$1" ] && [ ! -L "$1" ]; }

# Whether no file but those named is in a folder, temporary ones included.
only() { # FOLDER NAMES
    folder=$1
    shift
    [ "$(find "$folder" ! -type d | sed 's/.*\///' | sort | tr '\n' ' ')" = "$(printf '%s\n' "$@" | sed '/^$/d' | sort | tr '\n' ' ')" ]
}

# A file's bytes, in decimal.
bytes_of() { od -An -v -tu1 "$1" | tr -s ' \n' ' '; }

# ---- tables: 01's one station (id 7, channel 250, class A at 0, 0), an empty one, and damaged ones
head1='FMS\0000\0001\0000\0000\0001'
seven='\0000\0000\0000\0007\0000\0372\0000\0000\0000\0000\0000\0000\0000\0000\0000\0000'
printf '%b' "$head1$seven" >one.fms
printf '%b' 'FMS\0000\0001\0000\0000\0000' >empty.fms
printf '%b' "$head1"'\0000\0000\0000\0007\0001\0004\0000\0000\0000\0000\0000\0000\0000\0000\0000\0000' >at260.fms
printf '%b' 'FMS\0000\0001\0000\0000' >bad1.fms
: >bad1-empty.fms
printf '%b' "FMT\0000\0001\0000\0000\0001$seven" >bad2.fms
printf '%b' "FMS\0000\0003\0000\0000\0001$seven" >bad3.fms
printf '%b' "FMS\0000\0001\0001\0000\0001$seven" >bad4.fms
printf '%b' "$head1$seven\0000" >bad6.fms
printf '%b' "FMS\0000\0001\0000\0000\0002$seven$seven" >bad7.fms
printf '%b' "$head1"'\0000\0000\0000\0007\0001\0055\0000\0000\0000\0000\0000\0000\0000\0000\0000\0000' >bad8.fms
printf '%b' "$head1"'\0000\0000\0000\0007\0000\0372\0010\0000\0000\0000\0000\0000\0000\0000\0000\0000' >bad9.fms
printf '%b' "$head1"'\0000\0000\0000\0007\0000\0372\0000\0002\0000\0000\0000\0000\0000\0000\0000\0000' >bad10.fms
printf '%b' "$head1"'\0000\0000\0000\0007\0000\0372\0000\0000\0377\0373\0341\0117\0000\0000\0000\0000' >bad11.fms
printf '%b' "$head1"'\0000\0000\0000\0007\0000\0372\0000\0000\0000\0000\0000\0000\0000\0011\0343\0101' >bad12.fms
# The third record is the first again, under another id and fixed; on channel 210 the second is the first again, and the third too; the
# second is the first again, and the third has other flags; and one station by either longitude of the 180th meridian, no repeat.
twin() { printf '%b' "\\0000\\0000\\0000\\00$1\\0000\\0$2\\0000\\000$3\\0000\\0002\\0075\\0006\\0377\\0373\\0357\\0223"; }
other='\0000\0000\0000\0010\0000\0373\0000\0000\0000\0000\0000\0000\0000\0000\0000\0000'
{ printf '%b' 'FMS\0000\0001\0000\0000\0003' && twin 07 372 0 && printf '%b' "$other" && twin 11 372 1; } >bad27.fms
{ printf '%b' 'FMS\0000\0001\0000\0000\0003' && twin 07 322 0 && twin 11 322 0 && twin 12 322 0; } >bad27-low.fms
{ printf '%b' 'FMS\0000\0001\0000\0000\0003' && twin 07 372 0 && twin 11 372 0 && twin 12 372 2; } >bad10-later.fms
{
    printf '%b' 'FMS\0000\0001\0000\0000\0002'
    printf '%b' '\0000\0000\0000\0007\0000\0372\0000\0000\0000\0000\0000\0000\0000\0011\0343\0100'
    printf '%b' '\0000\0000\0000\0010\0000\0372\0000\0000\0000\0000\0000\0000\0377\0366\0034\0300'
} >ends.fms
# As many stations as version 1 carries; with one more, as few as version 2 carries; as many as a table holds; and what no
# version carries.
crowd() { sh "$root/tests/crowd.sh" "$@"; }
crowd 1 2000 >most1.fms
{
    printf '%b' 'FMS\0000\0002\0000\0007\0321'
    tail -c +9 most1.fms
    printf '%b' '\0000\0000\0007\0321\0000\0372\0007\0000\0000\0000\0000\0001\0377\0377\0377\0377'
} >least2.fms
crowd 2 4000 >full.fms
crowd 1 2001 >bad5.fms
crowd 2 2000 >bad5-under.fms
crowd 2 4001 >bad5-over.fms
# A fixed station (id 8), one on channel 220 (id 9), and a movable one with every number at its end (id 4294967295).
{
    printf '%b' 'FMS\0000\0001\0000\0000\0003'
    printf '%b' '\0000\0000\0000\0010\0000\0372\0000\0001\0000\0000\0000\0000\0000\0000\0000\0000'
    printf '%b' '\0000\0000\0000\0011\0000\0334\0004\0000\0000\0002\0075\0006\0377\0373\0357\0223'
    printf '%b' '\0377\0377\0377\0377\0001\0054\0007\0000\0377\0373\0341\0120\0000\0011\0343\0100'
} >three.fms
cp one.fms ./-odd.fms
cp one.fms 'a table.fms'
ln -s one.fms link.fms
ln -s nowhere.fms dangling.fms
mkdir folder
before=$(cksum ./*[!g].fms)

# Builds what is missing, so that what follows is answers alone.
for words in 'check one.fms 221 A II 0 0' 'why one.fms 221 A II 0 0' 'arrange one.fms A II 0 0' 'show one.fms' 'distance 0 0 0 0'; do
    # shellcheck disable=SC2086
    "$fm" $words >/dev/null 2>said </dev/null || {
        cat said
        printf 'fm: %s passed, 1 failed\n' "$passed"
        exit 1
    }
done
rm -f said

# ---- help and the words of a command
first='fm: which FM channels fit at a site under 47 CFR 73.207, or with contours protected under 73.215'
for word in help --help -h; do
    hold "fm $word" [ "$("$fm" "$word" | sed 1q)" = "$first" ]
done
"$fm" help >/dev/null
hold "fm help: status" [ $? -eq 0 ]
hold "fm without words: the page, on the error output" [ "$("$fm" 2>&1 >/dev/null | sed 1q)" = "$first" ]
"$fm" 2>/dev/null
hold "fm without words: status 2" [ $? -eq 2 ]
try 2 chek one.fms <<'SAYS'
fm: 'chek' is no command: ./fm help lists them
SAYS
try 2 '' <<'SAYS'
fm: '' is no command: ./fm help lists them
SAYS
try 2 check one.fms 250 A II 0 <<'SAYS'
fm: wrong number of words for check (5, not 6): ./fm check TABLE CHANNEL CLASS ZONE LAT LON
SAYS
try 2 check one.fms 250 A II 0 0 0 <<'SAYS'
fm: wrong number of words for check (7, not 6): ./fm check TABLE CHANNEL CLASS ZONE LAT LON
SAYS
try 2 why one.fms 250 A II 0 <<'SAYS'
fm: wrong number of words for why (5, not 6): ./fm why TABLE CHANNEL CLASS ZONE LAT LON
SAYS
try 2 arrange <<'SAYS'
fm: wrong number of words for arrange (0, not 5): ./fm arrange TABLE CLASS ZONE LAT LON
SAYS
try 2 add one.fms new.fms 9 250 A II 0 <<'SAYS'
fm: wrong number of words for add (7, not 8): ./fm add TABLE NEW ID CHANNEL CLASS ZONE LAT LON
SAYS
try 2 withdraw one.fms 7 <<'SAYS'
fm: wrong number of words for withdraw (2, not 3): ./fm withdraw TABLE NEW ID
SAYS
try 2 move one.fms new.fms 7 <<'SAYS'
fm: wrong number of words for move (3, not 4): ./fm move TABLE NEW ID CHANNEL
SAYS
try 2 show <<'SAYS'
fm: wrong number of words for show (0, not 1): ./fm show TABLE
SAYS
try 2 distance 0 0 0 <<'SAYS'
fm: wrong number of words for distance (3, not 4): ./fm distance LAT LON LAT LON
SAYS
try 2 show --raw one.fms <<'SAYS'
fm: show has no --raw: no proved program prints a table
SAYS
try 0 show --help <<'SAYS'
fm show: the stations of a table

  ./fm show TABLE
  Example: ./fm show examples/region.fms

Each stands in a line: position, id, channel, class, whether it may move, site.

  TABLE       a file of up to 4,000 stations; it is only read

Refuses: a damaged table (1 to 12, 27).
SAYS
try 0 distance --help <<'SAYS'
fm distance: how many km two sites are apart

  ./fm distance LAT LON LAT LON
  Example: ./fm distance 41-45-12N 046-20-30W 41-30-00N 046-00-00W

By the method of 47 CFR 73.208, in whole km, as in the lines of check; over the 180th meridian the short way round.

  LAT LON     degrees, minutes and seconds, as 40-44-54N 073-59-09W, or seconds of arc, as 146694 -266349
  --raw       anywhere among the words: the proved program's own lines instead of sentences (not for show)

Refuses: a site out of range (17), sites more than 475 km apart (24).
SAYS
try 0 why --help <<'SAYS'
fm why: why a channel is blocked, or that it is clear

  ./fm why TABLE CHANNEL CLASS ZONE LAT LON
  Example: ./fm why examples/region.fms 257 C3 II 41-45-12N 046-20-30W

The station that is short by most (of equals the lowest id), and the separation that the two should keep.

  TABLE       a file of up to 4,000 stations; it is only read
  ID          the station's number, from 1
  CHANNEL     221 to 300
  CLASS       A, B1, B, C3, C2, C1, C0 or C
  ZONE        I, I-A or II (I and I-A permit A, B1, B; II permits A, C3, C2, C1, C0, C)
  LAT LON     degrees, minutes and seconds, as 40-44-54N 073-59-09W, or seconds of arc, as 146694 -266349
  --aside     anywhere among the words, with an ID: as if that station were not there (check, why and arrange only)
  --standard  anywhere among the words, with 1 or 2: the separations to go by (check, why and arrange only; else 1)
  --raw       anywhere among the words: the proved program's own lines instead of sentences (not for show)

Standards:
  1  Table A of 47 CFR 73.207: for every application and every petition. Without --standard a study goes by it.
  2  The lesser separations of 47 CFR 73.215(e): only for an application that requests processing under 73.215
     on its face, and shows by an exhibit contour protection toward every assignment, application and allotment
     that is nearer than 73.207 asks. To predict the contours is the engineers' work: fm looks at none. Channels
     53 or 54 apart (10.6/10.8 MHz) stay by 73.207. No petition for an allotment may use it; a change of channel
     may with an exhibit of an allotment site that meets 73.207 in full (note to 73.203).
  add and move go by 1 always, so they may refuse with 20 what a study by 2 finds acceptable.

Refuses: a damaged table (1 to 12, 27), a channel outside 221 to 300 (13), a class that the zone does
  not permit (16), a site out of range (17), an id left aside that no station has (23).
SAYS
# Each command of the page: its line there, its own help in each way of asking, and an example of as many words.
for command in check why arrange add withdraw move distance show; do
    of=$("$fm" "$command" --help 2>/dev/null)
    hold "fm $command --help: status" [ $? -eq 0 ]
    usage=$(printf '%s\n' "$of" | sed -n "s|^  \./fm $command |$command |p")
    example=$(printf '%s\n' "$of" | sed -n "s|^  Example: \./fm $command |$command |p")
    hold "fm help: the words of $command" [ "$("$fm" help | grep -c "^  \./fm $usage  ")" -eq 1 ]
    hold "fm $command --help: the words of the example" [ "$(echo "$example" | wc -w)" -eq "$(echo "$usage" | wc -w)" ]
    hold "fm help $command" [ "$("$fm" help "$command")" = "$of" ]
    hold "fm --help $command" [ "$("$fm" --help "$command")" = "$of" ]
    hold "fm $command: --help wins" [ "$("$fm" "$command" absent.fms --raw --help 999 more words than it takes)" = "$of" ]
done
try 2 help chek <<'SAYS'
fm: 'chek' is no command: ./fm help lists them
SAYS
try 2 chek --help <<'SAYS'
fm: 'chek' is no command: ./fm help lists them
SAYS
try 2 help check show <<'SAYS'
fm: wrong number of words for help (2, not 0 or 1): ./fm help [COMMAND]
SAYS

# ---- check
try 0 check one.fms 250 A II 0 3702 <<'SAYS'
Channel 250 is not acceptable for class A in zone II at 00-00-00N 001-01-42E:
1 station is short.
  station 7 on 250 (class A)  is 114 km away and should be 115 km: short by 1 km under 73.207
SAYS
for east in 001-01-42E 1-1-42e 01-01-42E +3702 03702; do
    try 0 check one.fms 250 a ii 00-00-00S "$east" <<'SAYS'
Channel 250 is not acceptable for class A in zone II at 00-00-00N 001-01-42E:
1 station is short.
  station 7 on 250 (class A)  is 114 km away and should be 115 km: short by 1 km under 73.207
SAYS
done
for west in 001-01-43W -3703 -03703; do
    try 0 check one.fms 0250 A I-A -0 "$west" <<'SAYS'
Nothing is short: channel 250 is acceptable for class A in zone I-A at 00-00-00N 001-01-43W.
SAYS
done
try 0 check --raw one.fms 250 A II 0 3702 <<'SAYS'
short 1
7 114 115
SAYS
try 0 --raw check one.fms 250 A II 0 3703 <<'SAYS'
short 0
SAYS
try 0 check one.fms 250 A --raw II 0 3703 <<'SAYS'
short 0
SAYS
try 0 check one.fms 250 A II 0 3703 --raw <<'SAYS'
short 0
SAYS
try 0 check -odd.fms 250 B1 i 75-00-00N 180-00-00W <<'SAYS'
Nothing is short: channel 250 is acceptable for class B1 in zone I at 75-00-00N 180-00-00W.
SAYS
try 0 check 'a table.fms' 252 C II 75-00-00S 180-00-00E <<'SAYS'
Nothing is short: channel 252 is acceptable for class C in zone II at 75-00-00S 180-00-00E.
SAYS
try 0 check link.fms 300 C0 II 270000 648000 <<'SAYS'
Nothing is short: channel 300 is acceptable for class C0 in zone II at 75-00-00N 180-00-00E.
SAYS
try 0 check three.fms 299 C II -269999 647999 <<'SAYS'
Channel 299 is not acceptable for class C in zone II at 74-59-59S 179-59-59E:
1 station is short.
  station 4294967295 on 300 (class C)  is   0 km away and should be 241 km: short by 241 km under 73.207
SAYS
hold "check: 4,000 stations are short" [ "$("$fm" check full.fms 254 A II 0 0 | sed -n '2p;$p;$=')" = '4000 stations are short.
  station 4000 on 201 (class A)  is   2 km away and should be  10 km: short by 8 km under 73.207
4002' ]
for class in A B1 B b1 b; do
    try 0 check empty.fms 221 "$class" I 0 0 --raw <<'SAYS'
short 0
SAYS
done
for class in C3 C2 C1 C0 C c3 c2 c1 c0 c; do
    try 0 check empty.fms 300 "$class" II 0 0 --raw <<'SAYS'
short 0
SAYS
done

# ---- why: blocked in each column, and clear
try 0 why one.fms 250 A II 0 3702 <<'SAYS'
Channel 250 is blocked for class A in zone II at 00-00-00N 001-01-42E.
The largest shortfall is to station 7, channel 250, class A, at 00-00-00N 000-00-00E.
It stands 114 km away, and 47 CFR 73.207 asks for 115 km between two stations of class A
on the same channel (co-channel): short by 1 km.
SAYS
try 0 why three.fms 299 c0 ii -269999 647999 <<'SAYS'
Channel 299 is blocked for class C0 in zone II at 74-59-59S 179-59-59E.
The largest shortfall is to station 4294967295, channel 300, class C, at 75-00-00S 180-00-00E.
It stands 0 km away, and 47 CFR 73.207 asks for 220 km between class C0 and class C
on channels one apart (200 kHz): short by 220 km.
SAYS
for channel in 247 248 252 253; do
    try 0 why link.fms "$channel" B1 I-A 0 986 <<SAYS
Channel $channel is blocked for class B1 in zone I-A at 00-00-00N 000-16-26E.
The largest shortfall is to station 7, channel 250, class A, at 00-00-00N 000-00-00E.
It stands 30 km away, and 47 CFR 73.207 asks for 48 km between class B1 and class A
on channels two or three apart (400/600 kHz): short by 18 km.
SAYS
done
for channel in 273 274; do
    try 0 why three.fms "$channel" B I 40-44-54N 073-59-09W <<SAYS
Channel $channel is blocked for class B in zone I at 40-44-54N 073-59-09W.
The largest shortfall is to station 9, channel 220, class C2, at 40-44-54N 073-59-09W.
It stands 0 km away, and 47 CFR 73.207 asks for 20 km between class B and class C2
on channels 53 or 54 apart (10.6/10.8 MHz): short by 20 km.
SAYS
done
try 0 why one.fms 0250 A I-A -0 001-01-43W <<'SAYS'
Channel 250 is clear for class A in zone I-A at 00-00-00N 001-01-43W:
no station is nearer than 47 CFR 73.207 asks.
SAYS
for channel in 246 254 300; do
    try 0 why -odd.fms "$channel" A II 0 0 --raw <<'SAYS'
clear
SAYS
done
# The larger shortfall, first of the lower id and then of the higher; of many equal ones the lowest id.
"$fm" add one.fms pair.fms 9 253 A II 0 987 >/dev/null
for words in '7 31 72 1 1:251 A II 0 987' '9 3 72 1 1:252 A II 0 900'; do
    # shellcheck disable=SC2086
    try 0 why --raw pair.fms ${words#*:} <<SAYS
${words%:*}
SAYS
done
rm -f pair.fms
try 0 --raw why full.fms 254 A II 0 0 <<'SAYS'
1 0 10 3 1
SAYS
try 0 why full.fms 255 A II 0 --aside 1 0 --raw <<'SAYS'
2 0 10 3 1
SAYS

# ---- arrange
try 0 arrange one.fms A II 0 0 <<'SAYS'
Class A in zone II at 00-00-00N 000-00-00E: of 80 channels
73 are free, 7 open by one move, 0 are shut.

             1 2 3 4 5  6 7 8 9 0
  221-230    o o o o o  o o o o o
  231-240    o o o o o  o o o o o
  241-250    o o o o o  o + + + +
  251-260    + + + o o  o o o o o
  261-270    o o o o o  o o o o o
  271-280    o o o o o  o o o o o
  281-290    o o o o o  o o o o o
  291-300    o o o o o  o o o o o

  o free   + opens by one move   . shut

Free: 221-246, 254-300.

Open by one move:
  247 if station 7 (class A) moves from 250 to one of 221-243, 251-299.
  248 if station 7 (class A) moves from 250 to one of 221-244, 252-300.
  249 if station 7 (class A) moves from 250 to one of 221-245, 253-300.
  250 if station 7 (class A) moves from 250 to one of 221-246, 254-300.
  251 if station 7 (class A) moves from 250 to one of 221-247, 255-300.
  252 if station 7 (class A) moves from 250 to one of 221-248, 256-300.
  253 if station 7 (class A) moves from 250 to one of 221-249, 257-300.
SAYS
try 0 arrange three.fms A II 0 0 <<'SAYS'
Class A in zone II at 00-00-00N 000-00-00E: of 80 channels
73 are free, 0 open by one move, 7 are shut.

             1 2 3 4 5  6 7 8 9 0
  221-230    o o o o o  o o o o o
  231-240    o o o o o  o o o o o
  241-250    o o o o o  o . . . .
  251-260    . . . o o  o o o o o
  261-270    o o o o o  o o o o o
  271-280    o o o o o  o o o o o
  281-290    o o o o o  o o o o o
  291-300    o o o o o  o o o o o

  o free   + opens by one move   . shut

Free: 221-246, 254-300.
SAYS
hold "arrange --raw: 80 rows of the empty table" [ "$("$fm" arrange empty.fms C II 0 0 --raw | sort -u | grep -c '^[0-9][0-9]* 0 0$')" -eq 80 ]
hold "arrange --raw: 584 rows of one station on 260" [ "$("$fm" arrange --raw at260.fms A II 0 0 | wc -l)" -eq 584 ]
hold "arrange --raw: 73 rows of a fixed one" [ "$("$fm" arrange --raw three.fms A II 0 0 | wc -l)" -eq 73 ]

# ---- a station left aside
for words in '--aside 7 check one.fms 250 A II 0 3702' 'check --aside 7 one.fms 250 A II 0 3702' 'check one.fms 250 A --aside 7 II 0 3702' \
    'check one.fms 250 A II 0 --aside 00007 3702' 'check one.fms 250 A II 0 3702 --aside 7'; do
    # shellcheck disable=SC2086
    try 0 $words <<'SAYS'
Nothing is short: channel 250 is acceptable for class A in zone II at 00-00-00N 001-01-42E.
Station 7 was left aside, as if it were not in the table.
Its old record must be withdrawn before the new one can be added.
SAYS
done
try 0 check three.fms 299 C II -269999 647999 --aside 9 <<'SAYS'
Channel 299 is not acceptable for class C in zone II at 74-59-59S 179-59-59E:
1 station is short.
  station 4294967295 on 300 (class C)  is   0 km away and should be 241 km: short by 241 km under 73.207
Station 9 was left aside, as if it were not in the table.
Its old record must be withdrawn before the new one can be added.
SAYS
try 0 check three.fms --aside 4294967295 299 C II -269999 647999 <<'SAYS'
Nothing is short: channel 299 is acceptable for class C in zone II at 74-59-59S 179-59-59E.
Station 4294967295 was left aside, as if it were not in the table.
Its old record must be withdrawn before the new one can be added.
SAYS
try 0 why three.fms 300 C II -270000 648000 --aside 9 <<'SAYS'
Channel 300 is blocked for class C in zone II at 75-00-00S 180-00-00E.
The largest shortfall is to station 4294967295, channel 300, class C, at 75-00-00S 180-00-00E.
It stands 0 km away, and 47 CFR 73.207 asks for 290 km between two stations of class C
on the same channel (co-channel): short by 290 km.
Station 9 was left aside, as if it were not in the table.
Its old record must be withdrawn before the new one can be added.
SAYS
try 0 why --aside 4294967295 three.fms 299 C II -269999 647999 <<'SAYS'
Channel 299 is clear for class C in zone II at 74-59-59S 179-59-59E:
no station is nearer than 47 CFR 73.207 asks.
Station 4294967295 was left aside, as if it were not in the table.
Its old record must be withdrawn before the new one can be added.
SAYS
try 0 arrange at260.fms A I 0 0 --aside 7 <<'SAYS'
Class A in zone I at 00-00-00N 000-00-00E: of 80 channels
80 are free, 0 open by one move, 0 are shut.

             1 2 3 4 5  6 7 8 9 0
  221-230    o o o o o  o o o o o
  231-240    o o o o o  o o o o o
  241-250    o o o o o  o o o o o
  251-260    o o o o o  o o o o o
  261-270    o o o o o  o o o o o
  271-280    o o o o o  o o o o o
  281-290    o o o o o  o o o o o
  291-300    o o o o o  o o o o o

  o free   + opens by one move   . shut

Free: 221-300.

Station 7 was left aside, as if it were not in the table.
Its old record must be withdrawn before the new one can be added.
SAYS
try 0 check --aside 7 at260.fms 260 A I 0 0 --raw <<'SAYS'
short 0
SAYS
hold "arrange --aside --raw: 80 rows of one station left aside" [ "$("$fm" --raw arrange --aside 7 at260.fms A I 0 0 | sort -u | grep -c '^[0-9][0-9]* 0 0$')" -eq 80 ]
for words in 'check one.fms 250 A II 0 3702' 'check one.fms 250 A II 0 3703' 'arrange at260.fms A I 0 0' 'check three.fms 299 C II 0 0 --raw' 'arrange --raw three.fms A I 0 0' \
    'why one.fms 250 A II 0 3702' 'why one.fms 250 A II 0 3703'; do
    # shellcheck disable=SC2086
    hold "fm $words --aside 0: as without it" [ "$("$fm" $words --aside 0 2>&1)" = "$("$fm" $words 2>&1)" ]
    # shellcheck disable=SC2086
    hold "fm --aside 00 $words: as without it" [ "$("$fm" --aside 00 $words 2>&1)" = "$("$fm" $words 2>&1)" ]
done
for words in 'check one.fms 250 A II 0 0' 'why one.fms 250 A II 0 0' 'arrange one.fms A II 0 0'; do
    for id in 6 8 4294967295; do
        # shellcheck disable=SC2086
        try 1 $words --aside "$id" <<SAYS
fm: refused with number 23: no station of one.fms has id $id. ./fm show lists the ids.
SAYS
    done
    # shellcheck disable=SC2086
    try 1 $words --aside 8 --raw <<'SAYS'
refused 23 0
SAYS
    for word in seven '' -7 +7 7.0 4294967296; do
        # shellcheck disable=SC2086
        try 2 $words --aside "$word" <<SAYS
fm: '$word' is no id: an id is a whole number of up to 4294967295
SAYS
    done
    for last in --aside '--aside --raw' '--raw --aside'; do
        # shellcheck disable=SC2086
        try 2 $words $last <<'SAYS'
fm: no id follows --aside: give that of the station to leave aside
SAYS
    done
    for twice in '--aside 7 --aside 7' '--aside 0 --aside 7' '--aside 7 --aside'; do
        # shellcheck disable=SC2086
        try 2 $words $twice <<'SAYS'
fm: --aside is given more than once: one station is left aside, or none
SAYS
    done
done
for command in check why; do
    try 1 "$command" one.fms 250 A II 75-00-01N 0 --aside 8 <<'SAYS'
fm: refused with number 17: the site is out of range. Latitudes go from 75-00-00S to 75-00-00N, longitudes from 180-00-00W to 180-00-00E.
SAYS
    try 1 "$command" one.fms 220 A II 0 0 --aside 7 <<'SAYS'
fm: refused with number 13: channel 220 cannot be asked for. Ask for one of 221 to 300.
SAYS
done
for words in 'add one.fms new.fms 9 250 A II 0 3703' 'withdraw one.fms new.fms 7' 'move one.fms new.fms 7 260' 'distance 0 0 0 0' 'show one.fms' help 'help check'; do
    for last in '--aside 7' '--aside 0' --aside '--aside 7 --aside 7'; do
        # shellcheck disable=SC2086
        try 2 $words $last <<SAYS
fm: ${words%% *} has no --aside: only check, why and arrange leave a station aside
SAYS
    done
done
hold "--aside where it has no place writes nothing" absent new.fms
try 2 chek --aside 7 <<'SAYS'
fm: 'chek' is no command: ./fm help lists them
SAYS
try 2 check one.fms 250 A II 0 --aside 7 <<'SAYS'
fm: wrong number of words for check (5, not 6): ./fm check TABLE CHANNEL CLASS ZONE LAT LON
SAYS
for words in 'check --aside' 'check --aside seven' 'check --aside 7 --aside 7' 'why --aside 7' 'arrange --aside 7' 'show --aside 7'; do
    # shellcheck disable=SC2086
    hold "fm $words --help: --help wins" [ "$("$fm" $words --help)" = "$("$fm" help "${words%% *}")" ]
done
for command in check why arrange; do
    hold "fm $command --help: --aside" [ "$("$fm" "$command" --help | grep -c -e '^  --aside  ' -e '(23)\.$')" -eq 2 ]
done
hold "fm withdraw --help: no --aside" [ "$("$fm" withdraw --help | grep -c -e --aside)" -eq 0 ]
hold "fm help: --aside" [ "$("$fm" help | grep -c '^  --aside  ')" -eq 1 ]

# ---- the standards: two stations of class A on one channel keep 92 km by 73.215(e); 2959 seconds are 91 km, 2960 are 92
judged='Judged by the lesser separations of 47 CFR 73.215(e), and on channels 53 or 54 apart by 73.207.
They are for an application that requests processing under 73.215 on its face and shows
contour protection toward all that are nearer than 73.207 asks. No contour was looked at.
./fm add and ./fm move go by Table A of 73.207, and may refuse with 20.'
for words in '--standard 2 check one.fms 250 A II 0 2960' 'check --standard 2 one.fms 250 A II 0 2960' 'check one.fms 250 A --standard 02 II 0 2960' \
    'check one.fms 250 A II 0 --standard 2 2960' 'check one.fms 250 A II 0 2960 --standard 2'; do
    # shellcheck disable=SC2086
    try 0 $words <<SAYS
Nothing is short: with contours protected, channel 250 is acceptable for class A in zone II at 00-00-00N 000-49-20E.
$judged
SAYS
done
try 0 check one.fms 250 A II 0 2959 --standard 2 <<SAYS
Channel 250 is not acceptable for class A in zone II at 00-00-00N 000-49-19E, even with contours protected:
1 station is short.
  station 7 on 250 (class A)  is  91 km away and should be  92 km: short by 1 km under 73.215(e)
$judged
SAYS
# A row for each column: those of 73.215(e), and of 10.6/10.8 MHz that of 73.207.
{
    printf '%b' 'FMS\0000\0001\0000\0000\0006'
    printf '%b' '\0000\0000\0000\0001\0001\0004\0000\0000\0000\0000\0000\0000\0000\0000\0000\0000'
    printf '%b' '\0000\0000\0000\0002\0001\0005\0001\0000\0000\0000\0000\0000\0000\0000\0000\0000'
    printf '%b' '\0000\0000\0000\0003\0001\0002\0002\0000\0000\0000\0000\0000\0000\0000\0000\0000'
    printf '%b' '\0000\0000\0000\0004\0001\0007\0003\0000\0000\0000\0000\0000\0000\0000\0000\0000'
    printf '%b' '\0000\0000\0000\0005\0000\0317\0004\0000\0000\0000\0000\0000\0000\0000\0000\0000'
    printf '%b' '\0000\0000\0000\0006\0000\0316\0007\0001\0000\0000\0000\0000\0000\0000\0000\0000'
} >columns.fms
try 0 check columns.fms 260 A II 0 0 --standard 2 <<SAYS
Channel 260 is not acceptable for class A in zone II at 00-00-00N 000-00-00E, even with contours protected:
6 stations are short.
  station 1 on 260 (class A)  is   0 km away and should be  92 km: short by 92 km under 73.215(e)
  station 2 on 261 (class B1) is   0 km away and should be  72 km: short by 72 km under 73.215(e)
  station 3 on 258 (class B)  is   0 km away and should be  63 km: short by 63 km under 73.215(e)
  station 4 on 263 (class C3) is   0 km away and should be  36 km: short by 36 km under 73.215(e)
  station 5 on 207 (class C2) is   0 km away and should be  15 km: short by 15 km under 73.207
  station 6 on 206 (class C)  is   0 km away and should be  29 km: short by 29 km under 73.207
$judged
SAYS
try 0 check columns.fms 260 A II 0 0 <<'SAYS'
Channel 260 is not acceptable for class A in zone II at 00-00-00N 000-00-00E:
6 stations are short.
  station 1 on 260 (class A)  is   0 km away and should be 115 km: short by 115 km under 73.207
  station 2 on 261 (class B1) is   0 km away and should be  96 km: short by 96 km under 73.207
  station 3 on 258 (class B)  is   0 km away and should be  69 km: short by 69 km under 73.207
  station 4 on 263 (class C3) is   0 km away and should be  42 km: short by 42 km under 73.207
  station 5 on 207 (class C2) is   0 km away and should be  15 km: short by 15 km under 73.207
  station 6 on 206 (class C)  is   0 km away and should be  29 km: short by 29 km under 73.207
SAYS
rm -f columns.fms
# Why, in each column, and clear.
try 0 why one.fms 250 A II 0 2959 --standard 2 <<SAYS
Channel 250 is blocked for class A in zone II at 00-00-00N 000-49-19E, even with contours protected.
The largest shortfall is to station 7, channel 250, class A, at 00-00-00N 000-00-00E.
It stands 91 km away, and 47 CFR 73.215(e) asks for 92 km between two stations of class A
on the same channel (co-channel): short by 1 km.
$judged
SAYS
try 0 why --standard 2 three.fms 299 c0 ii -269999 647999 <<SAYS
Channel 299 is blocked for class C0 in zone II at 74-59-59S 179-59-59E, even with contours protected.
The largest shortfall is to station 4294967295, channel 300, class C, at 75-00-00S 180-00-00E.
It stands 0 km away, and 47 CFR 73.215(e) asks for 207 km between class C0 and class C
on channels one apart (200 kHz): short by 207 km.
$judged
SAYS
for channel in 247 248 252 253; do
    try 0 why link.fms "$channel" B1 I-A 0 986 --standard 2 <<SAYS
Channel $channel is blocked for class B1 in zone I-A at 00-00-00N 000-16-26E, even with contours protected.
The largest shortfall is to station 7, channel 250, class A, at 00-00-00N 000-00-00E.
It stands 30 km away, and 47 CFR 73.215(e) asks for 42 km between class B1 and class A
on channels two or three apart (400/600 kHz): short by 12 km.
$judged
SAYS
done
for channel in 273 274; do
    try 0 why three.fms "$channel" B I 40-44-54N 073-59-09W --standard 2 <<SAYS
Channel $channel is blocked for class B in zone I at 40-44-54N 073-59-09W, even with contours protected.
The largest shortfall is to station 9, channel 220, class C2, at 40-44-54N 073-59-09W.
It stands 0 km away, and 47 CFR 73.207 asks for 20 km between class B and class C2
on channels 53 or 54 apart (10.6/10.8 MHz): short by 20 km.
$judged
SAYS
done
try 0 why one.fms 250 A II 0 2960 --standard 2 <<SAYS
With contours protected, channel 250 is clear for class A in zone II at 00-00-00N 000-49-20E:
no station is nearer than 47 CFR 73.215(e) asks, or on channels 53 or 54 apart 73.207.
$judged
SAYS
# The programs' own lines: short by both standards, by Table A alone, by none.
for words in '2959:7 91 115 0 1:7 91 92 0 2' '2960:7 92 115 0 1:clear' '3702:7 114 115 0 1:clear' '3703:clear:clear'; do
    east=${words%%:*} by2=${words##*:}
    by1=${words#*:}
    by1=${by1%:*}
    try 0 why --raw one.fms 250 A II 0 "$east" <<SAYS
$by1
SAYS
    try 0 why --raw one.fms 250 A II 0 "$east" --standard 2 <<SAYS
$by2
SAYS
done
try 0 check --raw one.fms 250 A II 0 2959 --standard 2 <<'SAYS'
short 1
7 91 92
SAYS
try 0 --standard 2 --raw check one.fms 250 A II 0 3702 <<'SAYS'
short 0
SAYS
# Arrange: at 25 km the channels two and three from 250 are free by 73.215(e), and a station that moves goes by it too.
try 0 arrange one.fms A II 0 800 --standard 2 <<SAYS
Class A in zone II at 00-00-00N 000-13-20E, with contours protected: of 80 channels
77 are free, 3 open by one move, 0 are shut.

             1 2 3 4 5  6 7 8 9 0
  221-230    o o o o o  o o o o o
  231-240    o o o o o  o o o o o
  241-250    o o o o o  o o o + +
  251-260    + o o o o  o o o o o
  261-270    o o o o o  o o o o o
  271-280    o o o o o  o o o o o
  281-290    o o o o o  o o o o o
  291-300    o o o o o  o o o o o

  o free   + opens by one move   . shut

Free: 221-248, 252-300.

Open by one move:
  249 if station 7 (class A) moves from 250 to one of 221-247, 251-300.
  250 if station 7 (class A) moves from 250 to one of 221-248, 252-300.
  251 if station 7 (class A) moves from 250 to one of 221-249, 253-300.

$judged
A station that moves was judged so too: its change of channel needs the exhibit of the note to 73.203.
SAYS
hold "arrange: at 25 km by Table A" [ "$("$fm" arrange one.fms A II 0 800 | sed -n 2p)" = '73 are free, 7 open by one move, 0 are shut.' ]
hold "arrange --standard 2: nobody moves, nothing is said of a move" [ "$("$fm" arrange three.fms A II 0 0 --standard 2 | tail -n 4)" = "$judged" ]
hold "arrange --standard 2 --raw: the rows" [ "$("$fm" arrange one.fms A II 0 800 --standard 2 --raw | wc -l)" -eq 308 ]
# With a station left aside as well.
try 0 check three.fms 299 C II -269999 647999 --aside 9 --standard 2 <<SAYS
Channel 299 is not acceptable for class C in zone II at 74-59-59S 179-59-59E, even with contours protected:
1 station is short.
  station 4294967295 on 300 (class C)  is   0 km away and should be 209 km: short by 209 km under 73.215(e)
$judged
Station 9 was left aside, as if it were not in the table.
Its old record must be withdrawn before the new one can be added.
SAYS
try 0 why --standard 2 --aside 4294967295 three.fms 299 C II -269999 647999 <<SAYS
With contours protected, channel 299 is clear for class C in zone II at 74-59-59S 179-59-59E:
no station is nearer than 47 CFR 73.215(e) asks, or on channels 53 or 54 apart 73.207.
$judged
Station 4294967295 was left aside, as if it were not in the table.
Its old record must be withdrawn before the new one can be added.
SAYS
hold "arrange --aside --standard 2: both are said" [ "$("$fm" arrange at260.fms A I 0 0 --aside 7 --standard 2 | tail -n 6)" = "$judged
Station 7 was left aside, as if it were not in the table.
Its old record must be withdrawn before the new one can be added." ]
# What is acceptable by 2 is refused by add and move, which go by Table A.
try 1 add one.fms new.fms 9 250 A II 0 2960 <<'SAYS'
fm: refused with number 20: on channel 250 it would be short to station 7 (channel 250, class A), record 0 of one.fms counted from 0, and perhaps to later ones. ./fm check lists all that are short, ./fm arrange the channels that fit.
SAYS
for words in 'check one.fms 250 A II 0 2959' 'check one.fms 250 A II 0 3703' 'arrange at260.fms A I 0 0' 'check three.fms 299 C II 0 0 --raw' 'arrange --raw three.fms A I 0 0' \
    'why one.fms 250 A II 0 2959' 'why one.fms 250 A II 0 3703' 'why --raw one.fms 250 A II 0 0' 'check one.fms 250 A II 0 0 --aside 7' 'check one.fms 220 A II 0 0'; do
    # shellcheck disable=SC2086
    hold "fm $words --standard 1: as without it" [ "$("$fm" $words --standard 1 2>&1)" = "$("$fm" $words 2>&1)" ]
    # shellcheck disable=SC2086
    hold "fm --standard 01 $words: as without it" [ "$("$fm" --standard 01 $words 2>&1)" = "$("$fm" $words 2>&1)" ]
done
for words in 'check one.fms 250 A II 0 0' 'why one.fms 250 A II 0 0' 'arrange one.fms A II 0 0'; do
    for word in two '' 0 00 3 -1 +1 1.0 12 21 4294967297 73.207 '1 2'; do
        # shellcheck disable=SC2086
        try 2 $words --standard "$word" <<SAYS
fm: '$word' is no standard: the standards are 1 (Table A of 73.207) and 2 (73.215(e), for protected contours)
SAYS
    done
    for last in --standard '--standard --raw' '--raw --standard' '--standard --aside 7'; do
        # shellcheck disable=SC2086
        try 2 $words $last <<'SAYS'
fm: no number follows --standard: give 1 (Table A of 73.207) or 2 (73.215(e), for protected contours)
SAYS
    done
    for twice in '--standard 1 --standard 1' '--standard 1 --standard 2' '--standard 2 --standard' '--standard --standard 2'; do
        # shellcheck disable=SC2086
        try 2 $words $twice <<'SAYS'
fm: --standard is given more than once: a study goes by one standard
SAYS
    done
    # shellcheck disable=SC2086
    try 2 $words --aside --standard 2 <<'SAYS'
fm: no id follows --aside: give that of the station to leave aside
SAYS
    # shellcheck disable=SC2086
    try 1 $words --aside 8 --standard 2 <<'SAYS'
fm: refused with number 23: no station of one.fms has id 8. ./fm show lists the ids.
SAYS
done
for command in check why; do
    try 1 "$command" one.fms 250 A II 75-00-01N 0 --standard 2 <<'SAYS'
fm: refused with number 17: the site is out of range. Latitudes go from 75-00-00S to 75-00-00N, longitudes from 180-00-00W to 180-00-00E.
SAYS
    try 1 "$command" one.fms 220 A II 0 0 --standard 2 <<'SAYS'
fm: refused with number 13: channel 220 cannot be asked for. Ask for one of 221 to 300.
SAYS
done
for words in 'add one.fms new.fms 9 250 A II 0 3703' 'withdraw one.fms new.fms 7' 'move one.fms new.fms 7 260' 'distance 0 0 0 0' 'show one.fms' help 'help check'; do
    for last in '--standard 1' '--standard 2' --standard '--standard 2 --standard 2'; do
        # shellcheck disable=SC2086
        try 2 $words $last <<SAYS
fm: ${words%% *} has no --standard: only check, why and arrange choose one, and add and move go by 1
SAYS
    done
done
hold "--standard where it has no place writes nothing" absent new.fms
try 2 chek --standard 2 <<'SAYS'
fm: 'chek' is no command: ./fm help lists them
SAYS
try 2 check one.fms 250 A II 0 --standard 2 <<'SAYS'
fm: wrong number of words for check (5, not 6): ./fm check TABLE CHANNEL CLASS ZONE LAT LON
SAYS
for words in 'check --standard' 'check --standard two' 'check --standard 2 --standard 2' 'why --standard 2' 'arrange --standard 2' 'show --standard 2'; do
    # shellcheck disable=SC2086
    hold "fm $words --help: --help wins" [ "$("$fm" $words --help)" = "$("$fm" help "${words%% *}")" ]
done
for words in help 'check --help' 'why --help' 'arrange --help'; do
    # shellcheck disable=SC2086
    hold "fm $words: --standard, and when 2 may be used" [ "$("$fm" $words | grep -c -e '^  --standard  ' -e '^Standards:$' -e '^  2  .*73\.215(e)')" -eq 3 ]
done
for command in add withdraw move distance show; do
    hold "fm $command --help: no --standard" [ "$("$fm" "$command" --help | grep -c -i -e standard)" -eq 0 ]
done

# ---- show
try 0 show empty.fms <<'SAYS'
0 stations
SAYS
try 0 show three.fms <<'SAYS'
3 stations
position          id  channel  class  move         latitude  longitude
       0           8      250  A      fixed        00-00-00N 000-00-00E
       1           9      220  C2     not movable  40-44-54N 073-59-09W
       2  4294967295      300  C      movable      75-00-00S 180-00-00E
SAYS
hold "show: 4,000 stations" [ "$("$fm" show full.fms | sed -n '1p;$p;$=')" = '4000 stations
    3999        4000      201  A      not movable  00-00-32N 000-01-02E
4002' ]

# ---- over the 180th meridian: the short way round
try 0 add empty.fms strait.fms 7 250 A II 51-52-00N 179-59-51W <<'SAYS'
Station 7 is entered on channel 250, class A. strait.fms has 1 station.
SAYS
try 0 check strait.fms 250 A II 51-52-00N 179-59-59E <<'SAYS'
Channel 250 is not acceptable for class A in zone II at 51-52-00N 179-59-59E:
1 station is short.
  station 7 on 250 (class A)  is   0 km away and should be 115 km: short by 115 km under 73.207
SAYS
try 0 why strait.fms 251 A II 51-52-00N 179-30-00E <<'SAYS'
Channel 251 is blocked for class A in zone II at 51-52-00N 179-30-00E.
The largest shortfall is to station 7, channel 250, class A, at 51-52-00N 179-59-51W.
It stands 35 km away, and 47 CFR 73.207 asks for 72 km between two stations of class A
on channels one apart (200 kHz): short by 37 km.
SAYS
hold "arrange: a station over the 180th meridian" [ "$("$fm" arrange strait.fms A II 51-52-00N 179-59-59E | sed -n 2p)" = '73 are free, 7 open by one move, 0 are shut.' ]
try 1 add strait.fms new.fms 9 250 A II 51-52-00N 180-00-00E <<'SAYS'
fm: refused with number 20: on channel 250 it would be short to station 7 (channel 250, class A), record 0 of strait.fms counted from 0, and perhaps to later ones. ./fm check lists all that are short, ./fm arrange the channels that fit.
SAYS
rm -f strait.fms

# ---- distance
try 0 distance 0 0 0 3600 <<'SAYS'
00-00-00N 000-00-00E and 00-00-00N 001-00-00E are 111 km apart by 47 CFR 73.208.
SAYS
try 0 distance 40-44-54N 073-59-09W 42-21-30n 071-03-37w <<'SAYS'
40-44-54N 073-59-09W and 42-21-30N 071-03-37W are 303 km apart by 47 CFR 73.208.
SAYS
try 0 distance 75-00-00S 180-00-00E -270000 +648000 <<'SAYS'
75-00-00S 180-00-00E and 75-00-00S 180-00-00E are 0 km apart by 47 CFR 73.208.
SAYS
try 0 distance 51-52-00N 179-59-50E 51-52-00N 179-59-10W <<'SAYS'
51-52-00N 179-59-50E and 51-52-00N 179-59-10W are 1 km apart by 47 CFR 73.208.
SAYS
# The last of 114 km and the first of 115; the last short of 290 km; at 75 degrees; the last of 475 km; and over the 180th meridian.
for words in '114 0 0 0 3702' '115 0 0 0 3703' '289 4712 0 -4712 0' '290 4713 0 -4713 0' '462 75-00-00N 0 75-00-00N 016-00-00E' \
    '29 75-00-00S 180-00-00W 75-00-00S 179-00-00W' '475 0 0 0 15377' '475 15481 0 0 0' \
    '1 0 647990 0 -647990' '0 0 180-00-00W 0 180-00-00E' '114 0 646149 0 -646149' '115 0 646148 0 -646149' '475 0 640000 0 -640623'; do
    # shellcheck disable=SC2086
    set -- $words
    km=$1
    shift
    try 0 distance "$@" --raw <<SAYS
$km
SAYS
    try 0 --raw distance "$3" "$4" "$1" "$2" <<SAYS
$km
SAYS
done
for words in '0 0 0 15378' '0 0 15482 0' '0 640000 0 -640622' '0 180-00-00W 0 0' '0 090-00-00W 0 090-00-00E'; do
    # shellcheck disable=SC2086
    try 1 distance $words <<'SAYS'
fm: refused with number 24: the sites are more than 475 km apart, where the distance method of 73.208 does not hold.
SAYS
done
for words in '75-00-01N 0 0 0' '0 180-00-01W 0 0' '0 0 -270001 0' '0 0 0 648001' '2147483647 0 0 0' '0 0 0 -2147483648'; do
    # shellcheck disable=SC2086
    try 1 distance $words <<'SAYS'
fm: refused with number 17: a site is out of range. Latitudes go from 75-00-00S to 75-00-00N, longitudes from 180-00-00W to 180-00-00E.
SAYS
done
try 1 distance 0 0 0 15378 --raw <<'SAYS'
refused 24 0
SAYS
try 1 distance --raw 0 0 0 648001 <<'SAYS'
refused 17 0
SAYS
try 2 distance 0 0 0 1.5 <<'SAYS'
fm: '1.5' is no longitude: write degrees-minutes-seconds and E or W, as 073-59-09W, or seconds of arc in 32 bits, as 266349 or -266349
SAYS
try 2 distance 0 0 073-59-09W 0 <<'SAYS'
fm: '073-59-09W' is no latitude: write degrees-minutes-seconds and N or S, as 40-44-54N, or seconds of arc in 32 bits, as 146694 or -146694
SAYS

# ---- new tables
try 0 add one.fms new.fms 9 250 A II 0 3703 <<'SAYS'
Station 9 is entered on channel 250, class A. new.fms has 2 stations.
SAYS
hold "add: the bytes" [ "$(bytes_of new.fms)" = " 70 77 83 0 1 0 0 2 0 0 0 7 0 250 0 0 0 0 0 0 0 0 0 0 0 0 0 9 0 250 0 0 0 0 0 0 0 0 14 119 " ]
try 0 withdraw new.fms back.fms 00009 <<'SAYS'
Station 9 is withdrawn. back.fms has 1 station.
SAYS
hold "withdraw gives the table before the add" cmp -s back.fms one.fms
try 0 move new.fms folder/moved.fms 9 300 <<'SAYS'
Station 9 is moved to channel 300. folder/moved.fms has 2 stations.
SAYS
hold "move: the bytes" [ "$(bytes_of folder/moved.fms)" = " 70 77 83 0 1 0 0 2 0 0 0 7 0 250 0 0 0 0 0 0 0 0 0 0 0 0 0 9 1 44 0 0 0 0 0 0 0 0 14 119 " ]
try 0 add one.fms ./-new.fms 4294967295 300 C II 75-00-00S 180-00-00W <<'SAYS'
Station 4294967295 is entered on channel 300, class C. ./-new.fms has 2 stations.
SAYS
hold "add: the bytes of extremes" [ "$(bytes_of ./-new.fms)" = " 70 77 83 0 1 0 0 2 0 0 0 7 0 250 0 0 0 0 0 0 0 0 0 0 255 255 255 255 1 44 7 0 255 251 225 80 255 246 28 192 " ]
try 0 withdraw -odd.fms -gone.fms 7 <<'SAYS'
Station 7 is withdrawn. ./-gone.fms has 0 stations.
SAYS
hold "withdraw of the last station gives the empty table" cmp -s ./-gone.fms empty.fms
try 0 withdraw --raw one.fms 'a new table.fms' 7 <<'SAYS'
SAYS
hold "--raw: the table is written" cmp -s 'a new table.fms' empty.fms
rm -f new.fms back.fms ./-new.fms ./-gone.fms 'a new table.fms' folder/moved.fms
# Over the line between the versions and back; from the most stations down, and up again.
try 0 add most1.fms new.fms 2001 250 C II 1 -1 <<'SAYS'
Station 2001 is entered on channel 250, class C. new.fms has 2001 stations.
SAYS
hold "add to 2,000 stations writes version 2" cmp -s new.fms least2.fms
try 0 withdraw least2.fms back.fms 2001 <<'SAYS'
Station 2001 is withdrawn. back.fms has 2000 stations.
SAYS
hold "withdraw from 2,001 stations writes version 1" cmp -s back.fms most1.fms
rm -f new.fms back.fms
try 0 withdraw full.fms new.fms 4000 <<'SAYS'
Station 4000 is withdrawn. new.fms has 3999 stations.
SAYS
crowd 2 3999 | cmp -s - new.fms
hold "withdraw from 4,000 stations writes version 2" [ $? -eq 0 ]
try 0 add new.fms back.fms 4000 250 C II 1 -1 <<'SAYS'
Station 4000 is entered on channel 250, class C. back.fms has 4000 stations.
SAYS
rm -f new.fms back.fms

# ---- names of tables
try 2 check absent.fms 250 A II 0 0 <<'SAYS'
fm: there is no table absent.fms
SAYS
try 2 arrange '' A II 0 0 <<'SAYS'
fm: the name of the table is empty
SAYS
try 2 show folder <<'SAYS'
fm: folder is not a file, so it is no table
SAYS
try 2 show dangling.fms <<'SAYS'
fm: there is no table dangling.fms
SAYS
for name in one.fms ./one.fms "$room/one.fms" folder/../one.fms link.fms; do
    try 2 withdraw one.fms "$name" 7 <<SAYS
fm: $name is the table one.fms itself, and a table is never written over its source: name another file
SAYS
done
try 2 move link.fms one.fms 7 221 <<'SAYS'
fm: one.fms is the table link.fms itself, and a table is never written over its source: name another file
SAYS
cp one.fms twin.fms
for name in empty.fms twin.fms folder dangling.fms; do
    try 2 add one.fms "$name" 9 221 A II 0 0 <<SAYS
fm: $name exists already, and nothing is written over: name a file that does not exist
SAYS
done
hold "an existing file keeps its content" cmp -s twin.fms one.fms
rm -f twin.fms
try 2 withdraw one.fms '' 7 <<'SAYS'
fm: the name of the new table is empty
SAYS
try 2 withdraw one.fms nofolder/new.fms 7 <<'SAYS'
fm: there is no folder nofolder to write nofolder/new.fms in
SAYS
try 2 withdraw one.fms nofolder/ 7 <<'SAYS'
fm: nofolder/ is the name of a folder: name the file to write
SAYS

# ---- numbers and names that are no such thing
for word in 65536 -1 25x '' ' 250' 0x111 2.5 99999999999999999999; do
    for command in check why; do
        try 2 "$command" one.fms "$word" A II 0 0 <<SAYS
fm: '$word' is no channel: a channel is a whole number, 221 to 300
SAYS
    done
done
for word in 4294967296 -7 seven '' 7.0 +7 10000000000 99999999999999999999999; do
    try 2 withdraw one.fms new.fms "$word" <<SAYS
fm: '$word' is no id: an id is a whole number of up to 4294967295
SAYS
done
for word in 0 1 D B2 AA '' c4 '*'; do
    try 2 arrange one.fms "$word" II 0 0 <<SAYS
fm: '$word' is no class: the classes are A, B1, B, C3, C2, C1, C0 and C
SAYS
done
for word in 1 3 III IA I-B '' 'I '; do
    try 2 arrange one.fms A "$word" 0 0 <<SAYS
fm: '$word' is no zone: the zones are I, I-A and II
SAYS
done
for word in 40-44-54 40-44-54E 40-44N 40-60-00N 40-00-60N 1000-00-00N 40-044-54N 40--54N -40-44-54N 40-44-54-N 40-44-54NN N '' \
    4x4 40.7 2147483648 -2147483649 99999999999999999999 - + --5 '40 44 54N' '*N'; do
    try 2 check one.fms 250 A II "$word" 0 <<SAYS
fm: '$word' is no latitude: write degrees-minutes-seconds and N or S, as 40-44-54N, or seconds of arc in 32 bits, as 146694 or -146694
SAYS
done
for word in 073-59-09 073-59-09N 73-59W 073-59-60W 073-60-00E W 2147483648 -2147483649 +073-59-09W; do
    try 2 check one.fms 250 A II 0 "$word" <<SAYS
fm: '$word' is no longitude: write degrees-minutes-seconds and E or W, as 073-59-09W, or seconds of arc in 32 bits, as 266349 or -266349
SAYS
done

# ---- refusals of the table, by every command
anew='The table is damaged: get it anew from its office.'
damage() { # NUMBER TABLE SENTENCE
    try 1 show "$2" <<SAYS
fm: refused with number $1: $3. $anew
SAYS
    try 1 check "$2" 220 A II 0 0 <<SAYS
fm: refused with number $1: $3. $anew
SAYS
    try 1 why "$2" 220 A II 0 0 <<SAYS
fm: refused with number $1: $3. $anew
SAYS
    try 1 arrange "$2" C I 0 0 <<SAYS
fm: refused with number $1: $3. $anew
SAYS
    try 1 check "$2" 250 A II 0 0 --aside 7 <<SAYS
fm: refused with number $1: $3. $anew
SAYS
    try 1 arrange --aside 8 "$2" A II 0 0 <<SAYS
fm: refused with number $1: $3. $anew
SAYS
    try 1 check --standard 2 "$2" 220 C I 0 0 <<SAYS
fm: refused with number $1: $3. $anew
SAYS
    try 1 withdraw "$2" new.fms 7 <<SAYS
fm: refused with number $1: $3. $anew
SAYS
}
damage 1 bad1.fms "bad1.fms has under 8 bytes, less than a table's header"
damage 1 bad1-empty.fms "bad1-empty.fms has under 8 bytes, less than a table's header"
damage 2 bad2.fms 'bad2.fms does not begin with the mark FMS, so it is no table of stations'
damage 3 bad3.fms 'bad3.fms is of version 3, where only 1 and 2 have a meaning'
damage 4 bad4.fms 'the sixth byte of bad4.fms is not 0'
carried='where version 1 goes with 0 to 2,000 stations and version 2 with 2,001 to 4,000'
damage 5 bad5.fms "the header of bad5.fms has version 1 and the count 2001, $carried"
for words in '2000 bad5-under.fms' '4001 bad5-over.fms'; do
    try 1 show "${words#* }" <<SAYS
fm: refused with number 5: the header of ${words#* } has version 2 and the count ${words% *}, $carried. $anew
SAYS
done
damage 6 bad6.fms 'bad6.fms is not as long as its count of stations asks (8 bytes, and 16 for each): it was cut, or something hangs on'
damage 7 bad7.fms 'record 1 of bad7.fms, counted from 0, has id 7, which is 0 or not above the one before'
damage 8 bad8.fms 'record 0 of bad8.fms, counted from 0, has channel 301, outside 201 to 300'
damage 9 bad9.fms 'record 0 of bad9.fms, counted from 0, has class code 8, over 7'
damage 10 bad10.fms 'record 0 of bad10.fms, counted from 0, has flags 2, where only 0 and 1 have a meaning'
damage 11 bad11.fms 'record 0 of bad11.fms, counted from 0, has latitude -270001 seconds, beyond 75 degrees (270000)'
damage 12 bad12.fms 'record 0 of bad12.fms, counted from 0, has longitude 648001 seconds, beyond 180 degrees (648000)'
damage 27 bad27.fms 'record 2 of bad27.fms, counted from 0, is station 9 (channel 250, class A) at 40-44-54N 073-59-09W, which is there already as station 7 in record 0'
damage 27 bad27-low.fms 'record 1 of bad27-low.fms, counted from 0, is station 9 (channel 210, class A) at 40-44-54N 073-59-09W, which is there already as station 7 in record 0'
damage 10 bad10-later.fms 'record 2 of bad10-later.fms, counted from 0, has flags 2, where only 0 and 1 have a meaning'
try 1 add bad27.fms new.fms 0 220 C I 0 0 <<SAYS
fm: refused with number 27: record 2 of bad27.fms, counted from 0, is station 9 (channel 250, class A) at 40-44-54N 073-59-09W, which is there already as station 7 in record 0. $anew
SAYS
try 1 move bad27.fms new.fms 8 220 --raw <<'SAYS'
refused 27 2
SAYS
hold "either longitude of the 180th meridian: no repeat" [ "$("$fm" show ends.fms | grep -c '180-00-00[EW]$')" -eq 2 ]

# ---- refusals of the question
for channel in 220 301 0 65535; do
    for command in check why; do
        try 1 "$command" one.fms "$channel" A II 0 0 <<SAYS
fm: refused with number 13: channel $channel cannot be asked for. Ask for one of 221 to 300.
SAYS
    done
done
try 1 move one.fms new.fms 8 220 <<'SAYS'
fm: refused with number 13: channel 220 cannot be asked for. Ask for one of 221 to 300.
SAYS
for words in 'arrange one.fms' 'why one.fms 250'; do
    # shellcheck disable=SC2086
    try 1 $words C3 i-a 0 0 <<'SAYS'
fm: refused with number 16: zone I-A does not permit class C3. Zones I and I-A permit A, B1, B; zone II permits A, C3, C2, C1, C0, C.
SAYS
done
for site in '75-00-01N 0' '0 180-00-01W' '2147483647 0' '-2147483648 0' '0 2147483647' '0 -2147483648' '999-59-59S 0'; do
    # shellcheck disable=SC2086
    try 1 check one.fms 250 A II $site <<'SAYS'
fm: refused with number 17: the site is out of range. Latitudes go from 75-00-00S to 75-00-00N, longitudes from 180-00-00W to 180-00-00E.
SAYS
done
try 1 add one.fms new.fms 0 221 A II 0 0 <<'SAYS'
fm: refused with number 18: 0 is no id for a station. Give an id from 1.
SAYS
try 1 add three.fms new.fms 9 221 A II 0 0 <<'SAYS'
fm: refused with number 19: id 9 is taken by station 9 (channel 220, class C2), record 1 of three.fms counted from 0. Give another id, or withdraw that station first.
SAYS
try 1 add one.fms new.fms 9 250 A II 0 3702 <<'SAYS'
fm: refused with number 20: on channel 250 it would be short to station 7 (channel 250, class A), record 0 of one.fms counted from 0, and perhaps to later ones. ./fm check lists all that are short, ./fm arrange the channels that fit.
SAYS
"$fm" add one.fms pair.fms 9 260 A II 0 3702 >/dev/null
try 1 move pair.fms new.fms 9 250 <<'SAYS'
fm: refused with number 20: on channel 250 it would be short to station 7 (channel 250, class A), record 0 of pair.fms counted from 0, and perhaps to later ones.
SAYS
rm -f pair.fms
try 1 add full.fms new.fms 4001 250 A II 0 0 <<'SAYS'
fm: refused with number 21: full.fms already holds 4,000 stations, and no table holds more. Withdraw one first.
SAYS
for id in 0 8 4294967295; do
    try 1 withdraw one.fms new.fms "$id" <<SAYS
fm: refused with number 23: no station of one.fms has id $id. ./fm show lists the ids.
SAYS
done
try 1 move three.fms new.fms 8 250 <<'SAYS'
fm: refused with number 25: station 8 (channel 250, class A), record 0 of three.fms counted from 0, is not movable: it is fixed, or on a channel of 220 or below.
SAYS
try 1 move three.fms new.fms 9 250 <<'SAYS'
fm: refused with number 25: station 9 (channel 220, class C2), record 1 of three.fms counted from 0, is not movable: it is fixed, or on a channel of 220 or below.
SAYS
for command in check why; do
    try 1 "$command" --raw one.fms 220 A II 0 0 <<'SAYS'
refused 13 0
SAYS
done
try 1 add three.fms new.fms 9 221 A II 0 0 --raw <<'SAYS'
refused 19 1
SAYS
hold "a refusal is said on the error output" [ -z "$("$fm" check one.fms 220 A II 0 0 2>/dev/null)" ]
hold "--raw: a refusal is a line of the output" [ "$("$fm" check one.fms 220 A II 0 0 --raw 2>/dev/null)" = 'refused 13 0' ]
hold "a refusal leaves no table" absent new.fms
hold "no temporary file is left" [ -z "$(find . -name '.fm-*')" ]
hold "no table was touched" [ "$(cksum ./*[!g].fms)" = "$before" ]

# ---- writes that fail
(
    ulimit -f 1 && "$fm" withdraw full.fms folder/cut.fms 7
) >said 2>&1 </dev/null
hold "a cut write: status 3" [ $? -eq 3 ]
hold "a cut write leaves nothing" only folder
if [ -c /dev/full ] && [ -w /dev/full ]; then
    for words in 'check one.fms 250 A II 0 0' 'arrange one.fms A II 0 0' 'check --raw one.fms 250 A II 0 0' 'check one.fms 250 A II 0 0 --aside 7' \
        'arrange one.fms A II 0 0 --aside 7' 'why one.fms 250 A II 0 0' 'check one.fms 250 A II 0 0 --standard 2' 'show one.fms' 'distance 0 0 0 1' help 'help check'; do
        # shellcheck disable=SC2086
        "$fm" $words >/dev/full 2>said </dev/null
        hold "fm $words: status 3 on a full output" [ $? -eq 3 ]
    done
    "$fm" withdraw one.fms folder/new.fms 7 2>said >/dev/full </dev/null
    hold "withdraw: status 3 on a full output" [ $? -eq 3 ]
    hold "withdraw: a full output is said" grep -q 'fm: folder/new.fms is written, but the answer could not be written out' said
    hold "withdraw: the table is written all the same" cmp -s folder/new.fms empty.fms
    rm -f folder/new.fms
fi
if [ "$(id -u)" -eq 0 ]; then
    printf 'fm: read-only folders and unreadable tables skipped, since root may write and read them\n'
else
    mkdir closed
    chmod 555 closed
    got=$("$fm" withdraw one.fms closed/new.fms 7 2>&1 </dev/null)
    ended=$?
    hold "a read-only folder: status 3" [ "$ended" -eq 3 ]
    case $got in
    'fm: closed/.fm-'*'.new cannot be made, so closed/new.fms is not written: is the folder open for writing?') pass ;;
    *) miss "a read-only folder: $got" ;;
    esac
    hold "a read-only folder stays as it is" only closed
    "$fm" check one.fms 250 A II 0 0 >/dev/null 2>&1
    cp one.fms secret.fms
    chmod 000 secret.fms
    try 2 show secret.fms <<'SAYS'
fm: the table secret.fms cannot be read
SAYS
    rm -f secret.fms
fi
rm -f said

# ---- from another folder, and through links
mkdir elsewhere
ln -s "$root/fm" elsewhere/desk
ln -s desk elsewhere/desk2
hold "fm through links" [ "$(cd elsewhere && ./desk2 check ../one.fms 250 A II 0 3703 --raw)" = 'short 0' ]
hold "fm by the PATH" [ "$(env PATH="$room/elsewhere:$PATH" desk check one.fms 250 A II 0 3703 --raw)" = 'short 0' ]
hold "fm named to the shell" [ "$(cd "$root" && sh fm check "$room/one.fms" 250 A II 0 3703 --raw)" = 'short 0' ]

# ---- programs that are missing or fail: a copy of fm over programs of this test's own
mkdir -p tools kit/toolchain/bin kit/toolchain/lib
for program in check arrange change study reason; do mkdir -p "other/crates/fm_$program/out"; done
cp "$root/fm" other/fm
fm=$room/other/fm
for tool in sh awk cat cmp dirname ls mv od printf rm sed tr; do
    oldifs=$IFS
    IFS=:
    for folder in $PATH; do
        if [ -x "$folder/$tool" ]; then
            ln -s "$folder/$tool" "tools/$tool"
            break
        fi
    done
    IFS=$oldifs
done
# A script with given lines.
script() { # FILE LINES
    rm -f "$1"
    printf '#!/bin/sh\n%s\n' "$2" >"$1"
    chmod +x "$1"
}
# A program that answers empty input as the proved ones do, and any other with given lines.
answers() { # NAME LINES
    script "other/crates/$1/out/$1" "[ -n \"\$(od -An -N 1)\" ] || { echo refused 1 0; exit; }
cat >/dev/null
$2"
}
script tools/uname 'echo x86_64'
path=$room/tools
try 3 check one.fms 250 A II 0 0 <<'SAYS'
fm: crates/fm_check/out/fm_check is not built, and there is no rt to build it with
SAYS
# The crates that fm_check stands on are four: io and libc are none of the repository, and aside is not below it.
cat >other/crates.txt <<'CRATES'
# NAME: what it stands on
fm_check: wire lines   # fm_arrange: aside
aside: ground wire
lines: ground io libc
wire: ground
ground:
fm_arrange: ground
CRATES
script tools/rt 'echo "rt: it does not prove" >&2; exit 1'
try 3 arrange one.fms A II 0 0 <<'SAYS'
fm: building fm_arrange with rt run in crates/fm_arrange; this is done once and takes some minutes
rt: it does not prove
fm: rt run did not prove and build crates/fm_arrange/out/fm_arrange
SAYS
script tools/rt 'exit 0'
try 3 arrange one.fms A II 0 0 <<'SAYS'
fm: building fm_arrange with rt run in crates/fm_arrange; this is done once and takes some minutes
fm: rt run did not prove and build crates/fm_arrange/out/fm_arrange
SAYS
answers fm_arrange 'echo 221 0 0'
mv other/crates/fm_arrange/out/fm_arrange built
script tools/rt "mv $room/built out/fm_arrange; printf 0 >&2; exit 1"
try 3 arrange --raw one.fms A II 0 0 <<'SAYS'
fm: building fm_arrange with rt run in crates/fm_arrange; this is done once and takes some minutes
0
fm: rt run did not prove and build crates/fm_arrange/out/fm_arrange
SAYS
rm -f other/crates/fm_arrange/out/fm_arrange
script tools/rt 'exec >&2
echo "crate ground: modules loaded=110 checked=15"
echo "logic=proved functions=3 sum=0"
echo "crate lines: modules loaded=0 checked=290"
echo "logic=proved functions=9 sum=0"
echo "fn wire::get8: not proved"
echo "crate wire: modules loaded=0 checked=156"
echo "logic=not-proved"
echo "rt: the library wire did not build, so nothing above it was checked"
exit 1'
try 3 check one.fms 250 A II 0 0 <<'SAYS'
fm: building fm_check with rt run in crates/fm_check; this is done once and takes some minutes
fm: 1 of 4 crates proved (ground)
fm: 2 of 4 crates proved (lines)
crate ground: modules loaded=110 checked=15
logic=proved functions=3 sum=0
crate lines: modules loaded=0 checked=290
logic=proved functions=9 sum=0
fn wire::get8: not proved
crate wire: modules loaded=0 checked=156
logic=not-proved
rt: the library wire did not build, so nothing above it was checked
fm: rt run did not prove and build crates/fm_check/out/fm_check
SAYS
# Proves four crates, leaves what stands in `built` as the program and runs it.
proves="[ \"\$*\" = run ] || exit 2
for crate in ground wire lines fm_check; do
    echo \"crate \$crate: modules loaded=1 checked=1\"
    echo 'logic=proved functions=1 sum=0'
done >&2
mv $room/built out/fm_check
echo 'rt: running out/fm_check; to give it other input, run that file yourself' >&2
echo refused 1 0"
answers fm_check 'echo short 0'
mv other/crates/fm_check/out/fm_check built
script tools/rt "$proves"
try 0 check one.fms 250 A II 0 0 <<'SAYS'
fm: building fm_check with rt run in crates/fm_check; this is done once and takes some minutes
fm: 1 of 4 crates proved (ground)
fm: 2 of 4 crates proved (wire)
fm: 3 of 4 crates proved (lines)
fm: 4 of 4 crates proved (fm_check)
Nothing is short: channel 250 is acceptable for class A in zone II at 00-00-00N 000-00-00E.
SAYS

# Whoever ignores interrupts hands that on, and an interrupted build would go on: env sets it back where it can.
heed=''
env --default-signal=INT true >/dev/null 2>&1 && heed=--default-signal=INT

# The same on a terminal, where a line that is written over is shown here with its returns as < and its spaces as one.
on_terminal() { # WORDS
    env $heed SHELL=/bin/sh script -q -e -c "PATH='$path' '$fm' $*" /dev/null >said 2>&1 </dev/null
    ended=$?
    got=$(tr '\r' '<' <said | sed 's/<$//; s/  */ /g; s/ $//')
}
if env SHELL=/bin/sh script -q -e -c true /dev/null >/dev/null 2>&1 </dev/null; then
    mv other/crates/fm_check/out/fm_check built
    on_terminal check one.fms 250 A II 0 0
    hold "a build on a terminal: status $ended" [ "$ended" -eq 0 ]
    hold "a build on a terminal: $got" [ "$got" = "fm: building fm_check with rt run in crates/fm_check; this is done once and takes some minutes
<fm: 0 of 4 crates proved <fm: 1 of 4 crates proved (ground) <fm: 2 of 4 crates proved (wire) <fm: 3 of 4 crates proved (lines) <fm: 4 of 4 crates proved (fm_check)
Nothing is short: channel 250 is acceptable for class A in zone II at 00-00-00N 000-00-00E." ]
    mv other/crates/fm_check/out/fm_check built
    script tools/rt 'exec >&2
echo "crate ground: modules loaded=1 checked=1"
echo "logic=proved functions=1 sum=0"
echo "logic=not-proved"
exit 1'
    on_terminal check one.fms 250 A II 0 0
    hold "a failed build on a terminal: status $ended" [ "$ended" -eq 3 ]
    hold "a failed build on a terminal: $got" [ "$got" = "fm: building fm_check with rt run in crates/fm_check; this is done once and takes some minutes
<fm: 0 of 4 crates proved <fm: 1 of 4 crates proved (ground)
crate ground: modules loaded=1 checked=1
logic=proved functions=1 sum=0
logic=not-proved
fm: rt run did not prove and build crates/fm_check/out/fm_check" ]
    script tools/rt 'kill -s INT 0'
    on_terminal check one.fms 250 A II 0 0
    hold "an interrupted build: status $ended" [ "$ended" -eq 130 ]
    hold "an interrupted build: a line of its own is left" [ "$(sed -n '$=' said) $(tail -c 1 said | od -An -tu1 | tr -d ' ')" = '2 10' ]
    rm -f said
    mv built other/crates/fm_check/out/fm_check
else
    printf 'fm: no util-linux script at hand, builds on a terminal were not tested\n'
fi
try 0 check one.fms 250 A II 0 0 --raw <<'SAYS'
short 0
SAYS
# Runs fm with WORDS over a program that answers with each of LINES in turn: fm must say that it is no answer.
no_answer() { # NAME WORDS LINES
    name=$1 words=$2
    shift 2
    for line in "$@"; do
        answers "$name" "$line"
        # shellcheck disable=SC2086
        try 3 $words <<SAYS
fm: $name gave something that is no answer
SAYS
    done
}
no_answer fm_check 'check one.fms 250 A II 0 0' 'echo hello' 'echo short 1' 'echo short 0; echo 7 1 2' 'echo short 1; echo 8 1 2' ':' \
    'echo refused 27 0' 'echo refused 28 0' 'echo refused 13' 'echo refused x 0'
no_answer fm_check 'check bad1-empty.fms 250 A II 0 0' 'echo refused 3 0' 'echo refused 5 0'
answers fm_check 'exit 7'
try 3 check one.fms 250 A II 0 0 <<'SAYS'
fm: fm_check ended with status 7 and gave no answer
SAYS
no_answer fm_reason 'why one.fms 250 A II 0 0' 'echo hello' 'echo short 0' 'echo 7 1 2 0' 'echo 8 1 2 0 1' 'echo 7 1 2 4 1' 'echo 7 1 2 0 1 0' \
    'echo 7 1 2 0 2' 'echo 7 1 2 0 0' 'echo 7 1 2 0 1; echo 7 1 2 0 1' 'echo clear; echo clear' 'echo clear; echo 7 1 2 0 1' ':' 'echo refused 27 0'
no_answer fm_reason 'why one.fms 250 A II 0 0 --standard 2' 'echo 7 1 2 0 1' 'echo 7 1 2 0' 'echo clear 2'
answers fm_reason 'exit 7'
try 3 why one.fms 250 A II 0 0 --raw <<'SAYS'
fm: fm_reason ended with status 7 and gave no answer
SAYS
no_answer fm_arrange 'arrange one.fms A II 0 0' 'echo hello' 'echo 220 0 0' 'echo 301 0 0' 'echo 250 8 251'
answers fm_arrange ':'
hold "arrange: all shut" [ "$(PATH=$path "$fm" arrange one.fms A II 0 0 | sed -n 2p)" = '0 are free, 0 open by one move, 80 are shut.' ]
hold "arrange: all shut, raw" [ -z "$(PATH=$path "$fm" arrange --raw one.fms A II 0 0)" ]
answers fm_arrange 'echo 221 7 222; echo 300 0 0'
hold "arrange: one of each" [ "$(PATH=$path "$fm" arrange one.fms A II 0 0 | sed -n 2p)" = '1 is free, 1 opens by one move, 78 are shut.' ]
answers fm_check 'echo refused 14 0'
try 1 check one.fms 250 A II 0 0 <<'SAYS'
fm: refused with number 14: the class has a code over 7. Give one of A, B1, B, C3, C2, C1, C0, C.
SAYS
answers fm_check 'echo refused 15 0'
try 1 check one.fms 250 A II 0 0 <<'SAYS'
fm: refused with number 15: the zone has a code that is not 1, 2 or 3. Give I, I-A or II.
SAYS
answers fm_check 'echo refused 22 12003'
try 1 check one.fms 250 A II 0 0 <<'SAYS'
fm: refused with number 22: the answer needs room for 12003, more than the program has. This should not happen: report it.
SAYS
answers fm_check 'echo refused 24 0'
try 1 check one.fms 250 A II 0 0 <<'SAYS'
fm: refused with number 24: the sites are more than 475 km apart, where the distance method of 73.208 does not hold.
SAYS
no_answer fm_study 'distance 0 0 0 0' 'echo hello' 'echo 476' 'echo -1' 'echo 1; echo 2' ':' 'echo refused 1 0' 'echo refused 20 0' 'echo refused 24'
no_answer fm_study 'check one.fms 250 A II 0 0 --aside 7' 'echo hello' 'echo 475' 'echo short 1' ':' 'echo refused 27 0'
no_answer fm_study 'check one.fms 250 A II 0 0 --standard 2' 'echo short 1' 'echo short 1; echo 8 1 2' 'echo refused 27 0'
no_answer fm_study 'arrange one.fms A II 0 0 --aside 7' 'echo 301 0 0'
no_answer fm_study 'arrange one.fms A II 0 0 --standard 2' 'echo 301 0 0' 'echo 250 8 251'
answers fm_study 'echo refused 26 0'
for words in 'check one.fms 250 A II 0 0 --standard 2' 'arrange one.fms A II 0 0 --standard 2'; do
    # shellcheck disable=SC2086
    try 1 $words <<'SAYS'
fm: refused with number 26: the standard is neither 1 nor 2. Give 1 (Table A of 73.207) or 2 (73.215(e), for protected contours).
SAYS
done
answers fm_reason 'echo refused 26 0'
try 1 why one.fms 250 A II 0 0 <<'SAYS'
fm: refused with number 26: the standard is neither 1 nor 2. Give 1 (Table A of 73.207) or 2 (73.215(e), for protected contours).
SAYS
try 1 why one.fms 250 A II 0 0 --raw <<'SAYS'
refused 26 0
SAYS
answers fm_study 'exit 7'
try 3 arrange one.fms A II 0 0 --aside 7 <<'SAYS'
fm: fm_study ended with status 7 and gave no answer
SAYS
answers fm_change 'printf FMS'
try 3 withdraw one.fms folder/new.fms 7 <<'SAYS'
fm: the new table could not be written whole, and folder/new.fms is not there: is the disk full?
SAYS
no_answer fm_change 'withdraw one.fms folder/new.fms 7' 'echo hello'
no_answer fm_change 'show one.fms' 'echo hello'
answers fm_change 'exit 9'
try 3 withdraw one.fms folder/new.fms 7 <<'SAYS'
fm: fm_change ended with status 9, and folder/new.fms is not written
SAYS
hold "a failed program leaves nothing" only folder

# A name that is taken while the program runs, and a temporary name that is taken.
script other/crates/fm_change/out/fm_change "case \$(od -An -v -tu1 -N 5 | tr -s ' \n' ' ') in
'') echo refused 1 0 ;;
' 119 0 0 0 0 ') echo refused 23 0 ;;
*) echo taken >$room/folder/new.fms; cat $room/empty.fms ;;
esac"
try 2 withdraw one.fms folder/new.fms 7 <<'SAYS'
fm: folder/new.fms exists already, and nothing is written over: name a file that does not exist
SAYS
hold "a name taken meanwhile keeps its file" [ "$(cat folder/new.fms)" = taken ]
hold "a name taken meanwhile: nothing else is left" only folder new.fms
rm -f folder/new.fms
# shellcheck disable=SC2016
PATH=$path sh -c 'echo mine >"folder/.fm-$$.new"; exec "$0" withdraw one.fms folder/new.fms 7' "$fm" 2>/dev/null </dev/null
hold "a temporary name that is taken: status 3" [ $? -eq 3 ]
hold "a temporary name that is taken keeps its file" [ "$(cat folder/.fm-*.new)" = mine ]
rm -f folder/.fm-*.new

# A program that keeps at most so many bytes of its input in `seen`, and then has given lines.
keeps() { # NAME COUNT LINES
    script "other/crates/$1/out/$1" "seen=\$(od -An -v -tu1 -N $2 | tr -s ' \n' ' ')
[ -n \"\$seen\" ] || { echo refused 1 0; exit; }
printf '%s' \"\$seen\" >$room/seen
$3"
}
# Runs fm with WORDS: the program must have kept BYTES.
gives() { # BYTES WORDS
    want=$1
    shift
    PATH=$path "$fm" "$@" >/dev/null </dev/null
    hold "fm $*: the bytes are $(cat seen)" [ "$(cat seen)" = " $want " ]
}
# The bytes of each class, zone and number.
sees() { # BYTES WORDS
    want=$1
    shift
    gives "$want" check one.fms "$@"
}
keeps fm_check 12 'echo short 0'
code=0
for class in A B1 B C3 C2 C1 C0 C; do
    sees "0 250 $code 3 0 0 0 0 0 0 0 0" 250 "$class" II 0 0
    code=$((code + 1))
done
sees '0 250 0 1 0 0 0 0 0 0 0 0' 250 A I 0 0
sees '0 250 0 2 0 0 0 0 0 0 0 0' 250 A I-A 0 0
sees '255 255 0 3 127 255 255 255 128 0 0 0' 65535 A II 2147483647 -2147483648
sees '0 0 0 3 0 2 61 6 255 251 239 147' 0 A II 40-44-54N 073-59-09W
sees '1 44 0 3 255 255 255 255 0 0 0 1' 300 A II 00-00-01S 000-00-01E
# With a station left aside or by standard 2 fm_study gets the letter, the id or 0, the standard, and then the bytes of the other
# program; with the id 0 and by standard 1 that program is asked.
keeps fm_study 18 "[ \"\$(printf '%s' \"\$seen\" | sed 's/^ \([0-9]*\).*/\1/')\" = 97 ] || echo short 0"
sees '99 255 255 255 254 1 0 250 7 3 127 255 255 255 128 0 0 0' 250 C II 2147483647 -2147483648 --aside 4294967294
sees '99 0 0 0 7 1 1 44 0 1 255 255 255 255 0 0 0 1' --aside 7 300 A I 00-00-01S 000-00-01E
sees '99 0 0 0 7 2 1 44 0 1 255 255 255 255 0 0 0 1' --aside 7 300 A I 00-00-01S 000-00-01E --standard 2
sees '99 0 0 0 0 2 0 250 7 3 127 255 255 255 128 0 0 0' 250 C II 2147483647 --standard 02 -2147483648
sees '99 0 0 0 0 2 0 250 0 2 0 0 0 0 0 0 0 0' --standard 2 250 A I-A 0 0 --aside 0
sees '0 250 0 2 0 0 0 0 0 0 0 0' 250 A I-A 0 0 --aside 0
sees '0 250 0 2 0 0 0 0 0 0 0 0' 250 A I-A 0 0 --standard 1
sees '0 250 0 2 0 0 0 0 0 0 0 0' 250 A --standard 1 I-A 0 0 --aside 0
gives '97 0 1 0 0 1 2 2 0 0 0 1 255 255 255 254 70 77' arrange one.fms B I-A 1 -2 --aside 65536
gives '97 0 1 0 0 2 2 2 0 0 0 1 255 255 255 254 70 77' arrange one.fms B I-A 1 -2 --aside 65536 --standard 2
gives '97 0 0 0 0 2 2 2 0 0 0 1 255 255 255 254 70 77' arrange --standard 2 one.fms B I-A 1 -2
# fm_reason gets the bytes of fm_check, the id left aside or 0, the standard, and then the table.
keeps fm_reason 19 'echo clear'
gives '0 250 7 3 127 255 255 255 128 0 0 0 0 0 0 0 1 70 77' why one.fms 250 C II 2147483647 -2147483648
gives '0 250 7 3 127 255 255 255 128 0 0 0 0 0 0 0 1 70 77' why one.fms 250 C II 2147483647 -2147483648 --standard 1
gives '1 44 1 1 255 255 255 255 0 0 0 1 255 255 255 254 1 70 77' why one.fms 300 B1 I -1 1 --aside 4294967294
gives '1 44 1 1 255 255 255 255 0 0 0 1 255 255 255 254 2 70 77' why one.fms 300 B1 I -1 1 --standard 2 --aside 4294967294
gives '0 0 0 2 0 2 61 6 255 251 239 147 0 0 0 0 2 70 77' why one.fms 0 A I-A 40-44-54N 073-59-09W --aside 0 --standard 2
keeps fm_study 99 'echo 475'
try 0 distance 40-44-54N 073-59-09W -1 2147483647 <<'SAYS'
40-44-54N 073-59-09W and 00-00-01S 596523-14-07E are 475 km apart by 47 CFR 73.208.
SAYS
hold "fm distance: the bytes are $(cat seen)" [ "$(cat seen)" = ' 100 0 2 61 6 255 251 239 147 255 255 255 255 127 255 255 255 ' ]
rm -f seen

# ---- programs that do not run by themselves: the toolchain's loader, and its emulator on another machine
script other/crates/fm_check/out/fm_check 'exit 127'
rm -f tools/rt
try 3 check one.fms 250 A II 0 0 <<'SAYS'
fm: fm_check does not run by itself on this machine (x86_64), and there is no rt whose toolchain could run it
SAYS
script tools/rt "[ \"\$1\" = doc ] && echo $room/kit/START-HERE.md"
try 3 check one.fms 250 A II 0 0 <<SAYS
fm: the toolchain at $room/kit/toolchain cannot run fm_check on this machine (x86_64)
SAYS
script kit/toolchain/lib/ld-linux-x86-64.so.2 "[ \"\$*\" = '--library-path $room/kit/toolchain/lib $room/other/crates/fm_check/out/fm_check' ] && echo short 0"
try 0 check one.fms 250 A II 0 0 --raw <<'SAYS'
short 0
SAYS
script tools/uname 'echo other'
: >kit/toolchain/lib/ld-linux-x86-64.so.2
script kit/toolchain/bin/qemu-x86_64 "[ \"\$*\" = '$room/kit/toolchain/lib/ld-linux-x86-64.so.2 --library-path $room/kit/toolchain/lib $room/other/crates/fm_check/out/fm_check' ] && echo short 0"
try 0 check one.fms 250 A II 0 0 --raw <<'SAYS'
short 0
SAYS

printf 'fm: %s passed, %s failed\n' "$passed" "$failed"
[ "$failed" -eq 0 ]
