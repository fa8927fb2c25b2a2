#!/usr/bin/env bash
# tests/files.sh PROGRAM: tries on the built program what no contract can say of real files: that each fault of a file ends with its status, that the
# certificate is whole where the status says so, that the journal has what it should, and that no other file of the user's changes. It prints a line
# for each case, and ends with status 1 if any failed. It says what can't be tried on a machine.
#
# A case runs a command in a folder of its own, with standard error in a file beside it, in which the model stands as one.mps, and the journal of its finished search as j. Then each
# FILE=TEXT has to hold: the file is this text, or isn't there where the text is 'none'. One.mps and j have to be as they were, unless the case
# says otherwise.
set -eu

[ $# = 1 ] || { echo "tests/files.sh PROGRAM" >&2; exit 2; }
top=$(realpath "$(dirname "$0")/..")
scratch=$(mktemp -d)
trap 'rm -rf "$scratch"' EXIT
chmod 711 "$scratch"
install -m 755 "$1" "$scratch/bnc"
texts=$scratch/texts
mkdir "$texts"
tried=0
failed=0

# The program; one that hangs has failed.
bnc() { timeout 60 "$scratch/bnc" "$@"; }

# The program as a user who may not read or write all.
as_user=
[ "$(id -u)" != 0 ] || as_user='setpriv --reuid=65534 --regid=65534 --clear-groups'
bnc_as_user() { timeout 60 $as_user "$scratch/bnc" "$@"; }

# text NAME: keeps the standard input as the text of this name.
text() { cat >"$texts/$1"; }

# try NAME STATUS COMMAND [FILE=TEXT ..]
try() {
    local name=$1 wanted=$2 command=$3 status=0 why='' pair
    shift 3
    case " $*" in *' one.mps='*) ;; *) set -- "$@" one.mps=model ;; esac
    case " $*" in *' j='*) ;; *) set -- "$@" j=journal ;; esac
    tried=$((tried + 1))
    mkdir -m 777 "$scratch/$tried"
    cd "$scratch/$tried"
    cp "$texts/model" one.mps
    cp "$texts/journal" j
    chmod 666 j
    (set +e; eval "$command") 2>"$scratch/$tried.err" || status=$?
    [ "$status" = "$wanted" ] || why=" status $status and not $wanted;"
    for pair; do
        if [ "${pair#*=}" = none ]; then
            [ ! -e "${pair%%=*}" ] || why="$why ${pair%%=*} is there;"
        else
            cmp -s "${pair%%=*}" "$texts/${pair#*=}" || why="$why ${pair%%=*} is not the text ${pair#*=};"
        fi
    done
    if [ -z "$why" ]; then
        echo "ok: $name"
    else
        echo "FAILED: $name:$why"
        sed 's/^/    /' "$scratch/$tried.err"
        failed=$((failed + 1))
    fi
}

# number COUNT: a number as four bytes, the lowest first.
number() {
    local bytes
    printf -v bytes '\\x%02x\\x%02x\\x%02x\\x%02x' $(($1 & 255)) $(($1 >> 8 & 255)) $(($1 >> 16 & 255)) $(($1 >> 24 & 255))
    printf '%b' "$bytes"
}

# frame TEXT: this text as a payload behind an open gate.
frame() {
    printf '\1'
    number "$(wc -c <"$texts/$1")"
    cat "$texts/$1"
}

# record FILE: the record of a model without an upper bound, as docs/JOURNAL.md has it.
record() {
    printf '\1\1\0'
    number 0
    number 0
    cat "$1"
}

text model <"$top/examples/one.mps"
text both <"$top/crates/bnc_cli/stdout"
head -n -3 "$texts/both" | text cert
tail -n 3 "$texts/both" | text lines
echo 'refused usage' | text usage
echo 'fault read' | text read
echo 'fault disk' | text disk
echo 'fault sink' | text sink
echo 'refused journal NotAJournal' | text NotAJournal
echo 'refused journal NoModel' | text NoModel

# The journal of the model's search, as it begins and as it ends, and what is shown of it.
record "$texts/model" | text record
{ printf '\3'; number 1; number 2; number 0; } | text offer
{ printf '\5'; number 0; printf '\1\0'; number 0; } | text close
printf '\7\2' | text upgrade
printf '\6\2\3\1\4\5\0\1\0\0' | text short_group
{ printf 'BNCJRNL1'; frame record; printf '\0'; } | text begun
{ printf '\6\2'; cat "$texts/offer" "$texts/close"; } | text group
{ printf 'BNCJRNL1'; frame record; frame upgrade; frame short_group; printf '\0'; } | text journal
# As programs wrote it before they wrote groups, and before there was encoding 2; and what it is once a program has gone on from there.
{ printf 'BNCJRNL1'; frame record; frame offer; frame close; printf '\0'; } | text older
{ printf 'BNCJRNL1'; frame record; frame offer; frame close; frame upgrade; printf '\0'; } | text older_upgraded
{ printf 'BNCJRNL1'; frame record; frame group; printf '\0'; } | text grouped
{ printf 'BNCJRNL1'; frame record; frame group; frame upgrade; printf '\0'; } | text grouped_upgraded
# The same of 1,020 bytes, by a comment: with the record of the upgrade it is longer than 1,024.
{ printf '*%0*d\n' $((1020 - 2 - $(wc -c <"$texts/grouped"))) 0; cat "$texts/model"; } | text long_model
record "$texts/long_model" | text long_record
{ printf 'BNCJRNL1'; frame long_record; frame group; printf '\0'; } | text long_grouped
{ printf 'BNCJRNL1'; frame long_record; frame group; frame upgrade; printf '\0'; } | text long_upgraded
printf '%s\n' 'events 0' 'nodes 1' 'cuts 0' 'open 1' 'best none' | text shown_begun
printf '%s\n' 'events 2' 'nodes 1' 'cuts 0' 'open 0' 'best 6' | text shown
echo 'earlier text' | text earlier
seq 10000 | text long
text empty </dev/null
tail -n +2 "$texts/model" | text part_of_model
cat "$texts/earlier" "$texts/both" | text earlier_both
cat "$texts/earlier" "$texts/cert" | text earlier_cert
cat "$texts/both" "$texts/earlier" | text both_earlier
printf '%s\n' spent 'nodes 1' 'cuts 0' 'open 1' | text spent

# Journals that are torn, damaged, or of another model, and where that shows.
offer_at=$((13 + $(wc -c <"$texts/record")))
close_at=$((offer_at + 18))
cp "$texts/record" "$texts/foreign"
head -c $((close_at - 1)) "$texts/grouped" | text torn
{ printf 'BNCJRNL1\1'; number $((2 ** 32 - 1)); cat "$texts/record"; } | text endless
{ printf '\11'; tail -c +2 "$texts/offer"; } | text ninth
{ printf 'BNCJRNL1'; frame record; frame ninth; printf '\0'; } | text tag
{ printf '\3'; number 1; number 3; number 0; } | text three
{ printf 'BNCJRNL1'; frame record; frame three; frame close; printf '\0'; } | text point
{ printf 'BNCJRNL1'; frame record; frame offer; frame offer; printf '\0'; } | text twice
{ printf 'BNCJRNL1'; frame offer; printf '\0'; } | text no_record
{ printf '\6\101'; cat "$texts/offer" "$texts/close"; } | text many
{ printf 'BNCJRNL1'; frame record; frame many; printf '\0'; } | text group_of_65
head -c -1 "$texts/group" | text short
{ printf 'BNCJRNL1'; frame record; frame short; printf '\0'; } | text group_cut
{ printf '\6\3'; cat "$texts/offer" "$texts/close" "$texts/close"; } | text thrice
{ printf 'BNCJRNL1'; frame record; frame thrice; printf '\0'; } | text third_refused
{ printf 'BNCJRNL1'; frame record; frame upgrade; frame upgrade; printf '\0'; } | text upgraded_twice
{ printf 'BNCJRNL1'; frame record; frame upgrade; frame group; printf '\0'; } | text encoding_1_behind
{ printf 'BNCJRNL1'; frame record; frame short_group; frame upgrade; printf '\0'; } | text encoding_2_before
{ printf 'BNCJRNL1'; frame upgrade; frame record; printf '\0'; } | text upgrade_first
printf 'BNCJRNL1\0\1\1' | text bare
{ cat "$texts/begun"; frame offer | tail -c +2 | head -c 9; } | text part
sed 's/^\( FX .*\) 2$/\1 3/' "$texts/model" | text two
difference=$(cmp -l "$texts/model" "$texts/two" | awk 'NR == 1 { print $1 }')
echo "refused journal OtherModel $((10 + difference))" | text other
echo 'refused journal OtherModel 2' | text other_upper

# A model whose search without cuts takes five nodes, and what is told of it.
text halves <<'END'
NAME halves
ROWS
 N obj
 E r
COLUMNS
 m 'MARKER' 'INTORG'
 x r 2
 y r 2
 m 'MARKER' 'INTEND'
RHS
 rhs r 3
BOUNDS
 BV b x
 BV b y
ENDATA
END
printf '%s\n' 'events 1' 'nodes 3' 'cuts 0' 'open 2' 'best none' | text shown_halves
text halves_cert <<'END'
VER 1.0
VAR 2
x
y
INT 2
0 1
OBJ min
0
CON 5 4
R0 E 3 2 0 2 1 2
L0 G 0 1 0 1
U0 L 1 1 0 1
L1 G 0 1 1 1
U1 L 1 1 1 1
RTP infeas
SOL 0
DER 9
A1 L 0 1 1 1 { asm } -1
A2 G 1 1 1 1 { asm } -1
A3 L 0 1 0 1 { asm } -1
A4 G 1 1 0 1 { asm } -1
N4 G 1 0 { lin 3 0 -1 6 2 8 2 } -1
N3 G 1 0 { lin 3 0 1 4 -2 7 -2 } -1
N2 G 1 0 { uns 10 7 9 8 } -1
N1 G 1 0 { lin 3 0 1 2 -2 5 -2 } -1
N0 G 1 0 { uns 12 5 11 6 } -1
END

# A model whose search without cuts takes some hundred nodes.
{
    printf '%s\n' 'NAME odd' ROWS ' N obj' ' E r' COLUMNS " m 'MARKER' 'INTORG'"
    printf ' x%d r 2\n' {1..10}
    printf '%s\n' " m 'MARKER' 'INTEND'" RHS ' rhs r 11' BOUNDS
    printf ' BV b x%d\n' {1..10}
    echo ENDATA
} | text odd

# A certificate is made, or takes the place of an older one.
try 'a new certificate' 0 'bnc solve one.mps j c >out' c=cert out=lines
try 'four workers' 0 'bnc solve one.mps new c --workers 4 >out' new=journal c=cert out=lines
try 'over an older certificate' 0 'cp "$texts/long" c; bnc solve one.mps j c >out' c=cert out=lines
try 'over a link to an older certificate' 0 'cp "$texts/long" old; ln -s old c; bnc solve one.mps j c >out' old=cert out=lines
try 'through a link to no file' 0 'ln -s new c; bnc solve one.mps j c >out' new=cert out=lines
try 'into a named pipe' 0 'mkfifo c; cat c >got & bnc solve one.mps j c >out && wait' got=cert out=lines
try 'to the null device' 0 'bnc solve one.mps j /dev/null >out' out=lines
try 'a new certificate in another folder' 0 'mkdir d; bnc solve one.mps j d/c >out' d/c=cert out=lines
try 'through a link to no file in another folder' 0 'mkdir d; ln -s d/new c; bnc solve one.mps j c >out' d/new=cert out=lines
try 'into a file that is open already' 0 'bnc solve one.mps j /dev/fd/3 3<>c >out' c=cert out=lines
try 'words that are no command' 2 'bnc solve one.mps j >out' out=usage
try 'one path twice' 2 'bnc solve one.mps one.mps c >out' out=usage c=none

# Some of the descriptors 0 to 2 are closed at the start.
for closed in '<&-' '2>&-' '<&- 2>&-'; do
    try "closed: $closed" 0 "bnc solve one.mps j c >out $closed" c=cert out=lines
done
for closed in '>&-' '<&- >&-' '>&- 2>&-' '<&- >&- 2>&-'; do
    try "closed: $closed" 7 "bnc solve one.mps j c $closed" c=cert
    try "closed: $closed, and the certificate goes to standard output" 7 "bnc solve one.mps j /dev/stdout $closed"
    try "closed: $closed, and no command" 2 "bnc solve one.mps j $closed"
done
try 'closed: 2>&-, and the certificate goes to standard error' 7 'bnc solve one.mps j /dev/stderr >out 2>&-' out=sink
try 'closed: <&-, and the model comes from standard input' 5 'bnc solve /dev/stdin j c >out <&-' out=read c=none

# The certificate is the model, or the journal, by another name.
links='ln one.mps hard; ln -s one.mps soft'
for cert in ./one.mps '$PWD/one.mps' '../${PWD##*/}/one.mps' /proc/self/cwd/one.mps hard soft /dev/fd/3; do
    try "the certificate is the model: $cert" 7 "$links; bnc solve one.mps j $cert 3<>one.mps >out" out=sink hard=model
done
for model in ./one.mps hard soft; do
    try "the certificate is the model, which is read as $model" 7 "$links; bnc solve $model j one.mps >out" out=sink
done
try 'the certificate is the model, which is standard input' 7 'bnc solve /dev/stdin j one.mps <one.mps >out' out=sink
links='ln j hard; ln -s j soft'
for cert in ./j '$PWD/j' hard soft /dev/fd/3; do
    try "the certificate is the journal: $cert" 7 "$links; bnc solve one.mps j $cert 3<>j >out" out=sink hard=journal
done
for journal in ./j hard soft; do
    try "the certificate is the journal, which is named $journal" 7 "$links; bnc solve one.mps $journal j >out" out=sink
done
for cert in ./j '$PWD/j' hard soft; do
    try "the certificate of a search that is resumed is the journal: $cert" 7 "$links; bnc resume j $cert >out" out=sink hard=journal
done

# The certificate is another journal, or a copy of the model. Nothing is searched then.
try 'the certificate and the journal are exchanged' 7 'bnc solve one.mps c j >out' out=sink c=none
try 'the certificate of a drill is a journal' 7 'bnc drill 7 j >out' out=sink
try 'the certificate is another journal' 7 'cp j k; bnc solve one.mps new k >out' out=sink k=journal new=none
try 'the certificate is a journal that is begun' 7 'cp "$texts/begun" k; bnc resume j k >out' out=sink k=begun
try 'the certificate is a damaged journal' 7 'cp "$texts/torn" k; bnc solve one.mps new k >out' out=sink k=torn new=none
try 'the certificate is the mark alone' 7 'printf BNCJRNL1 | tee k >k2; bnc solve one.mps new k >out; status=$?; cmp k k2; exit $status' out=sink new=none
try 'the certificate is the model of the journal' 7 'bnc resume j one.mps >out' out=sink
try 'the certificate is the model of a journal that is begun' 7 'cp "$texts/begun" j; bnc resume j one.mps >out' out=sink j=begun
for command in 'solve one.mps new copy' 'solve one.mps j copy' 'resume j copy' 'solve /dev/stdin j copy'; do
    try "the certificate is a copy of the model: $command" 7 "cp one.mps copy; bnc $command <one.mps >out" out=sink copy=model new=none
done
try 'the certificate is a copy of the model, which comes through a pipe' 7 'cp one.mps copy; cat one.mps | bnc solve /dev/stdin new copy >out' out=sink copy=model new=journal
for cert in two part_of_model empty cert; do
    try "the certificate is no copy of the model: $cert" 0 "cp \"\$texts/$cert\" c; bnc solve one.mps new c >out; bnc resume j c >again" out=lines again=lines c=cert new=journal
done
try 'the certificate and the journal are one new file' 7 'bnc solve one.mps new ./new >out' out=sink new=journal
try 'the journal is the model by another name' 4 'bnc solve one.mps ./one.mps c >out' out=NotAJournal c=none
try 'the model comes through a pipe' 0 'cat one.mps | bnc solve /dev/stdin j c >out' c=cert out=lines

# A journal is begun, shown and gone on with.
try 'a new journal' 0 'rm j; bnc solve one.mps j c >out' j=journal c=cert out=lines
try 'a new journal, with all descriptors closed' 7 'bnc solve one.mps new c <&- >&- 2>&-' new=journal c=cert
try 'an empty file as the journal' 0 ': >j; bnc solve one.mps j c >out' j=journal c=cert out=lines
try 'nine bytes as the journal' 0 'printf 123456789 >j; bnc solve one.mps j c >out' j=journal c=cert out=lines
try 'a journal that is begun' 0 'cp "$texts/begun" j; bnc solve one.mps j c >out' j=journal c=cert out=lines
try 'a journal that is begun, resumed' 0 'cp "$texts/begun" j; bnc resume j c >out' j=journal c=cert out=lines
try 'a journal that is begun, shown' 0 'cp "$texts/begun" j; bnc show j >out' j=begun out=shown_begun
try 'a finished journal, resumed' 0 'bnc resume j c >out' c=cert out=lines
try 'a finished journal, shown' 0 'bnc show j >out' out=shown
try 'a journal of single events, solved' 0 'cp "$texts/older" j; bnc solve one.mps j c >out' j=older_upgraded c=cert out=lines
try 'a journal of single events, resumed' 0 'cp "$texts/older" j; bnc resume j c >out' j=older_upgraded c=cert out=lines
try 'a journal of encoding 1, solved' 0 'cp "$texts/grouped" j; bnc solve one.mps j c >out; bnc show j >told' j=grouped_upgraded c=cert out=lines told=shown
try 'a journal of encoding 1, shown' 0 'cp "$texts/grouped" j; bnc show j >out' j=grouped out=shown
try 'a journal of single events, shown' 0 'cp "$texts/older" j; bnc show j >out' j=older out=shown
try 'a journal through a link' 0 'mv j there; ln -s there j; bnc solve one.mps j c >out' there=journal c=cert out=lines
try 'a journal through a link to no file' 0 'ln -s new link; bnc solve one.mps link c >out' new=journal c=cert out=lines
try 'the certificate is written by another run' 0 'bnc solve one.mps new none/c >first || bnc solve one.mps new c >out' new=journal first=sink c=cert out=lines
try 'a search is spent, shown, and resumed' 0 'cp "$texts/halves" h; for n in 1 3; do bnc solve h k c --cuts 0 --nodes $n >out$n; done
    bnc show k >shown; bnc resume k c --cuts 0 >out' out1=spent shown=shown_halves c=halves_cert
try 'a run is killed, and resumed' 0 'mkfifo p; { timeout -s KILL 1 "$scratch/bnc" solve one.mps k p; } 2>/dev/null; bnc solve one.mps k c >out' k=journal c=cert out=lines
try 'a drill is spent' 8 'bnc drill 1 c --nodes 1 --cuts 0 >out' c=none out=spent
for closed in '>&-' '<&- >&- 2>&-'; do
    try "closed: $closed, and the journal is shown" 7 "bnc show j $closed"
done
for command in 'show none' 'resume none c'; do
    try "no journal is there: $command" 4 "bnc $command >out" out=NoModel none=none c=none
done

# A journal that is refused is left as it is.
while read -r name line; do
    echo "refused journal $line" | text told
    for command in 'solve one.mps j c' 'resume j c' 'show j'; do
        try "$name: $command" 4 "cp \"\$texts/$name\" j; bnc $command >out" j="$name" out=told c=none
    done
done <<END
foreign NotAJournal
torn Damaged $offer_at
endless Damaged 8
tag Damaged $offer_at
point Damaged $offer_at
twice Damaged $close_at
no_record Damaged 8
group_of_65 Damaged $offer_at
group_cut Damaged $offer_at
third_refused Damaged $offer_at
upgraded_twice Damaged $((offer_at + 7))
encoding_1_behind Damaged $((offer_at + 7))
encoding_2_before Damaged $offer_at
upgrade_first Damaged 8
END
try 'no model in it, shown' 4 'cp "$texts/bare" j; bnc show j >out' j=bare out=NoModel
try 'no model in it, resumed' 4 'cp "$texts/bare" j; bnc resume j c >out' j=bare out=NoModel c=none
try 'no model in it, solved' 0 'cp "$texts/bare" j; bnc solve one.mps j c >out' j=journal out=lines c=cert
try 'a part of a frame behind its end' 0 'cp "$texts/part" j; bnc solve one.mps j c >out' j=journal out=lines c=cert
try 'a part of a frame behind its end, shown' 0 'cp "$texts/part" j; bnc show j >out' j=part out=shown_begun
try 'a text behind its end' 0 'echo text >>j; bnc solve one.mps j c >out' out=lines c=cert
try 'the journal of another model' 4 'cp "$texts/two" two.mps; bnc solve two.mps j c >out' out=other c=none
try 'the journal of another bound' 4 'bnc solve one.mps j c --upper 5 >out' out=other_upper c=none
if (cd "$scratch" && truncate -s 16G big && rm big) 2>/dev/null; then
    try 'a file of 16 GB that is no journal' 4 'truncate -s 16G big; status=0; bnc show big >out || status=$?; rm big; exit $status' out=NotAJournal
else
    echo 'not tried, since no file of 16 GB can be made: a large file that is no journal'
fi

# The journal is no file, or can't be read or written.
for command in 'solve one.mps d c' 'resume d c' 'show d'; do
    try "the journal is a folder: $command" 6 "mkdir d; bnc $command >out" out=disk c=none
    try "the journal is a device: $command" 6 "ln -s /dev/null d; bnc $command >out" out=disk c=none
    try "the journal is a device without an end: $command" 6 "ln -s /dev/zero d; bnc $command >out" out=disk c=none
    try "the journal is a pipe: $command" 6 "mkfifo d; bnc $command >out" out=disk c=none
    try "the journal is in a file: $command" 6 "ln -s one.mps/j d; bnc $command >out" out=disk c=none
    try "the journal may not be read: $command" 6 "cp j d; chmod 0 d; bnc_as_user $command >out" out=disk c=none
done
try 'the journal is in no folder' 6 'bnc solve one.mps none/j c >out' c=none out=disk none=none
try 'the folder of a new journal may only be read' 6 'mkdir -m 555 d; bnc_as_user solve one.mps d/j c >out; status=$?; chmod 755 d; exit $status' out=disk d/j=none c=none
try 'the journal may only be read, and is shown' 0 'chmod 444 j; bnc_as_user show j >out' out=shown
try 'the journal may only be read, and is finished' 0 'chmod 444 j; bnc_as_user solve one.mps j c >out' out=lines c=cert
try 'the journal may only be read, is finished, and is resumed' 0 'chmod 444 j; bnc_as_user resume j c >out' out=lines c=cert
try 'the journal may only be read, is of encoding 1, and is shown' 0 'cp "$texts/grouped" j; chmod 444 j; bnc_as_user show j >out' j=grouped out=shown
for command in 'solve one.mps j c' 'resume j c'; do
    try "the journal may only be read, is of encoding 1, and is finished: $command" 6 "cp \"\$texts/grouped\" j; chmod 444 j; bnc_as_user $command >out" out=disk c=none j=grouped
done
for name in begun part bare; do
    try "the journal may only be read: $name" 6 "cp \"\$texts/$name\" j; chmod 444 j; bnc_as_user solve one.mps j c >out" out=disk c=none j=$name
done
if command -v flock >/dev/null; then
    try 'the journal is in use' 6 'flock j "$scratch/bnc" solve one.mps j c >out' out=disk c=none
    try 'the journal is in use, and only begun' 6 'cp "$texts/begun" j; flock j "$scratch/bnc" resume j c >out' j=begun out=disk c=none
    try 'the journal is in use, and is shown' 0 'flock j "$scratch/bnc" show j >out' out=shown
    for cert in c ./c hard soft /dev/fd/3; do
        try "the certificate is a file in use: $cert" 7 "cp \"\$texts/earlier\" c; ln c hard; ln -s c soft; flock c \"\$scratch/bnc\" solve one.mps j $cert 3<>c >out" out=sink c=earlier
    done
else
    echo 'not tried, for want of the command flock: a journal or a certificate that is in use'
fi
search='cp "$texts/odd" m; bnc solve m k c --cuts 0 >out & until [ -e k ] && [ "$(stat -c %s k)" -gt 1000 ]; do :; done'
try 'the journal is removed while the search goes on' 6 "$search; rm k; wait \$!" out=disk k=none c=none
try 'the journal is replaced while the search goes on' 6 "$search; cp one.mps n; mv n k; wait \$!" out=disk k=model c=none
try 'the certificate is the journal, which is renamed while the search goes on' 7 "$search; mv k c; wait \$! || status=\$?; bnc show c | grep -qx 'open 0'; exit \$status" out=sink k=none

# The disk is full.
try 'no file may get longer' 6 'set -o pipefail; (trap "" XFSZ; ulimit -f 0; bnc solve one.mps new c) | cat >out' out=disk new=empty c=none
try 'no file may get longer, which ends the program' 153 '{ (ulimit -c 0; ulimit -f 0; "$scratch/bnc" solve one.mps new c; exit $?); } 2>/dev/null' new=empty c=none
try 'no file may get longer, so that the record of the upgrade is written in part' 6 'cp "$texts/long_grouped" j; set -o pipefail; status=0; (trap "" XFSZ; ulimit -f 1; bnc resume j c) | cat >first || status=$?
    bnc show j >told; bnc resume j c >out; exit $status' j=long_upgraded first=disk told=shown c=cert out=lines
mkdir "$scratch/small"
if mount -t tmpfs -o size=8k,mode=777 tmpfs "$scratch/small" 2>/dev/null; then
    trap 'umount "$scratch/small"; rm -rf "$scratch"' EXIT
    fill='ln -s "$scratch/small" d; rm -f d/*; { printf "%9000s" >d/filler; } 2>/dev/null'
    try 'the disk is full' 6 "$fill; bnc solve one.mps d/j c >out" out=disk d/j=empty c=none
    try 'the disk was full' 0 "$fill; bnc solve one.mps d/j c >first || rm d/filler; bnc solve one.mps d/j c >out" first=disk out=lines d/j=journal c=cert
    try 'the disk of the certificate is full' 7 "$fill; bnc solve one.mps j d/c >out" out=sink d/c=none d/c.1.part=none
    try 'the disk of an older certificate is full' 7 "$fill; rm d/filler; cp \"\$texts/earlier\" d/c; { printf '%9000s' >d/filler; } 2>/dev/null; bnc solve one.mps j d/c >out" out=sink d/c=earlier d/c.1.part=none
else
    echo 'not tried, since no file system may be mounted here: a small disk that is full'
fi

# The certificate goes to the file of standard output or standard error.
links=': >>out; ln out hard; ln -s out soft'
for cert in /dev/stdout /dev/fd/1 /proc/self/fd/1 out ./out '$PWD/out' hard soft; do
    try "the certificate is standard output: $cert" 0 "$links; bnc solve one.mps j $cert >out" out=both
    try "the certificate is standard output, behind other text: $cert" 0 "cp \"\$texts/earlier\" out; $links; bnc solve one.mps j $cert >>out" out=earlier_both
done
try 'standard output has a text before' 0 '{ cat "$texts/earlier"; bnc solve one.mps j /dev/stdout; } >out' out=earlier_both
try 'standard output has a text behind' 0 '{ bnc solve one.mps j out; cat "$texts/earlier"; } >out' out=both_earlier
try 'standard output is a pipe' 0 'set -o pipefail; bnc solve one.mps j /dev/stdout | cat >out' out=both
try 'standard output is a pipe that nobody reads' 7 'mkfifo pipe; exec 4<>pipe 5>pipe 4<&-; bnc solve one.mps j /dev/stdout >&5'
try 'standard output is open for reading alone' 7 'cp "$texts/earlier" in; bnc solve one.mps j /dev/stdout 1<in' in=earlier

# Standard output, or standard error, is the model or a journal.
for cert in /dev/stdout c; do
    try "standard output goes on behind the model: $cert" 7 "bnc solve one.mps j $cert >>one.mps" c=none
    try "standard output goes on behind the journal: $cert" 7 "bnc solve one.mps j $cert >>j" c=none
    try "standard output is the journal, which the shell has emptied: $cert" 7 "bnc solve one.mps j $cert >j" j=empty c=none
    try "standard output goes on behind another journal: $cert" 7 "cp j k; bnc solve one.mps new $cert >>k" k=journal c=none new=none
done
try 'standard output goes on behind the journal, which is shown' 7 'bnc show j >>j'
try 'standard error goes on behind the model' 6 'bnc solve one.mps d/j c >out 2>>one.mps' out=disk c=none
try 'standard error goes on behind the journal' 5 'bnc solve none j c >out 2>>j' out=read c=none
try 'standard error goes on behind another journal' 5 'cp j k; bnc solve none j c >out 2>>k' out=read c=none k=journal
try 'the certificate is standard error' 0 'bnc solve one.mps j /dev/stderr >out 2>err' out=lines err=cert
try 'the certificate is standard error, behind other text' 0 'cp "$texts/earlier" err; bnc solve one.mps j /dev/stderr >out 2>>err' out=lines err=earlier_cert
try 'standard output and standard error are one file' 0 'bnc solve one.mps j /dev/stderr >out 2>&1' out=both
if command -v script >/dev/null; then
    try 'standard output is a terminal' 0 'script -qec "$scratch/bnc solve one.mps j /dev/stdout" /dev/null </dev/null | tr -d "\\r" >out' out=both
else
    echo 'not tried, for want of the command script: standard output is a terminal'
fi

if command -v python3 >/dev/null; then
    # The pipe is full when the program starts, and is read a while later.
    cat >"$scratch/unblocked" <<'END'
import os, subprocess, sys, time
reader, writer = os.pipe()
os.set_blocking(writer, False)
filled = 0
try:
    while True:
        filled += os.write(writer, bytes(4096))
except BlockingIOError:
    pass
run = subprocess.Popen(sys.argv[1:], stdout=writer)
time.sleep(0.3)
os.close(writer)
with open(reader, "rb") as pipe:
    told = pipe.read()
sys.stdout.buffer.write(told[filled:])
sys.exit(run.wait(60))
END
    try 'standard output does not block, and is full at first' 0 'python3 "$scratch/unblocked" "$scratch/bnc" solve one.mps j c >out' out=lines c=cert
    try 'the certificate goes to standard output, which does not block' 0 'python3 "$scratch/unblocked" "$scratch/bnc" solve one.mps j /dev/stdout >out' out=both
else
    echo 'not tried, for want of the command python3: standard output that does not block'
fi

# Calls of the system that fail, or end the program.
if strace -o /dev/null true 2>/dev/null; then
    failing() { timeout 60 strace -f -o /dev/null -e "inject=$1" "$scratch/bnc" "${@:2}"; }
    for error in EINVAL EIO; do
        try "the certificate can't be synced: $error" 7 "cp \"\$texts/earlier\" c; failing fsync:error=$error drill 7 c >out" out=sink c=earlier c.1.part=none
        try "the journal can't be synced: $error" 6 "failing fsync:error=$error solve one.mps new c >out" out=disk c=none
    done
    try 'what is no plain file is not synced' 0 'failing fsync:error=EINVAL drill 7 /dev/null >out; status=$?; failing fsync:error=EIO drill 7 /dev/stdout >both; exit $status'
    try "the certificate can't be put in its place" 7 'cp "$texts/earlier" c; failing rename,renameat,renameat2:error=EBUSY solve one.mps j c >out' out=sink c=earlier c.1.part=none
    try 'a run is killed before its certificate is in its place' 0 'cp "$texts/earlier" c; { failing rename,renameat,renameat2:signal=KILL solve one.mps j c >out; } 2>/dev/null; [ $? = 137 ] && cp c before && bnc solve one.mps j c >out' \
        before=earlier c.1.part=cert out=lines c=cert
else
    echo 'not tried, for want of the command strace: calls of the system that fail'
fi

# What a person is told on standard error.
told() { echo "bnc: $1" | text "told"; }
told "unexpected argument '--node' found; see man bnc"
try 'told of a wrong word' 2 'bnc solve one.mps j c --node 5 >out 2>err' out=usage err=told c=none
told 'two of the paths are the same; see man bnc'
try 'told of equal paths' 2 'bnc resume j j >out 2>err' out=usage err=told
told 'a word is not UTF-8; see man bnc'
try 'told of a word that is not UTF-8' 2 'bnc show "$(printf "\377")" >out 2>err' out=usage err=told
told 'none: No such file or directory (os error 2)'
try 'told of a model that is not there' 5 'bnc solve none j c >out 2>err' out=read err=told c=none
told 'd/j: No such file or directory (os error 2)'
try 'told of a journal in no folder' 6 'bnc solve one.mps d/j c >out 2>err' out=disk err=told c=none
told 'd: it is no plain file'
try 'told of a journal that is a folder' 6 'mkdir d; bnc show d >out 2>err' out=disk err=told
told 'd/c: No such file or directory (os error 2)'
try 'told of a certificate in no folder' 7 'bnc solve one.mps j d/c >out 2>err' out=sink err=told
told 'j: it is a journal'
try 'told of a certificate that is a journal' 7 'bnc drill 7 j >out 2>err' out=sink err=told
told './j: it is the model or the journal'
try 'told of a certificate that is the journal' 7 'bnc resume j ./j >out 2>err' out=sink err=told
told 'one.mps: it is a copy of the model'
try 'told of a certificate that is a copy of the model' 7 'bnc resume j one.mps >out 2>err' out=sink err=told
told 'standard output: No space left on device (os error 28)'
try 'told of standard output that is full' 7 'bnc solve one.mps j c >/dev/full 2>err' c=cert err=told
told 'standard output: it is the model or the journal'
try 'told of standard output that is the journal' 7 'bnc solve one.mps j c >>j 2>err' c=none err=told
try 'told nothing where all is well' 0 'bnc solve one.mps j c >out 2>err' c=cert out=lines err=empty
try 'told nothing of a refusal' 4 'cp "$texts/foreign" j; bnc show j >out 2>err' j=foreign out=NotAJournal err=empty
try 'told nothing where standard error is full' 5 'bnc solve none j c >out 2>/dev/full' out=read c=none
try 'a stack of 80 KB' 0 '(ulimit -s 80; "$scratch/bnc" solve one.mps j c --workers 4 >out)' out=lines c=cert

# What can't be written or read.
try 'the certificate is a folder' 7 'mkdir c; bnc solve one.mps j c >out' out=sink
try 'the certificate is in no folder' 7 'bnc solve one.mps j none/c >out' out=sink none=none
try 'the certificate is in a file' 7 'bnc solve one.mps j one.mps/c >out' out=sink
try 'the certificate is on a full device' 7 'bnc solve one.mps j /dev/full >out' out=sink
try 'the certificate may be written, and its folder may not' 0 'mkdir d; cp "$texts/long" d/c; chmod 666 d/c; chmod 555 d; bnc_as_user solve one.mps j d/c >out; status=$?; chmod 755 d; exit $status' out=lines d/c=cert
try 'the certificate may only be written' 7 'cp "$texts/earlier" c; chmod 222 c; bnc_as_user solve one.mps j c >out; status=$?; chmod 644 c; exit $status' out=sink c=earlier
try 'an older certificate keeps its permissions' 0 'cp "$texts/long" c; chmod 604 c; bnc solve one.mps j c >out && [ "$(stat -c %a c)" = 604 ]' out=lines c=cert c.1.part=none
try 'a new certificate has the permissions of a new file' 0 'umask 027; : >new; bnc solve one.mps j c >out && [ "$(stat -c %a c)" = "$(stat -c %a new)" ]' out=lines c=cert
try 'a part of a certificate was left by a run that was killed' 0 'cp "$texts/earlier" c.1.part; bnc solve one.mps j c >out' out=lines c=cert c.1.part=earlier c.2.part=none
try 'the name of the certificate is as long as a name may be' 0 'name=$(printf "%0255d"); bnc solve one.mps j $name >out && cp $name c' out=lines c=cert
try 'the certificate may only be read' 7 'cp "$texts/earlier" c; chmod 444 c; bnc_as_user solve one.mps j c >out' out=sink c=earlier
try 'the folder of the certificate may only be read' 7 'mkdir -m 555 d; bnc_as_user solve one.mps j d/c >out; status=$?; chmod 755 d; exit $status' out=sink d/c=none
for cert in d/c c; do
    try "the folder of the certificate may not be read: $cert" 7 "mkdir -m 333 d; ln -s d/c c; bnc_as_user solve one.mps j $cert >out; status=\$?; chmod 755 d; exit \$status" out=sink d/c=cert
done
try 'the certificate is a file without a name' 7 'exec 3<>gone; rm gone; bnc solve one.mps j /dev/fd/3 >out' out=sink gone=none
try 'the lines go to a full device' 7 'bnc solve one.mps j c >/dev/full' c=cert
try 'the certificate and the lines go to a full device' 7 'bnc solve one.mps j /dev/stdout >/dev/full'
try 'the model is a folder' 5 'mkdir m; bnc solve m j c >out' out=read c=none
try 'the model is in no folder' 5 'bnc solve none/m j c >out' out=read c=none
try 'the model may not be read' 5 'cp one.mps m; chmod 0 m; bnc_as_user solve m j c >out' out=read c=none

echo "tests/files.sh: $((tried - failed)) passed, $failed failed"
[ "$failed" = 0 ]
