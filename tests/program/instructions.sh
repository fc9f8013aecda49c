#!/bin/bash
# Counts with callgrind the instructions that the program takes for each unit of its work, over inputs that are made here, and compares
# them with the limits in tests/program/instructions. A count above its limit fails; one that is more than a tenth below it is reported,
# so that the limit is lowered.
#   tests/program/instructions.sh              JOBS (one for each processor): how many runs are counted side by side
#   tests/program/instructions.sh --measure    prints the file of limits anew, each 5 % above what is measured
# PROGRAM is the program (build/braildesk).
# Each figure is the difference of two runs that differ in that work alone, so that starting, and opening a file, are left out, and
# without what is called to read or write the rows of a file. All runs have one environment, so that a program is counted alike each time.
set -eu
cd "$(dirname "$0")/../.."
. tests/built.sh awk sqlite3 valgrind
fail() { echo "tests/program/instructions.sh: $*" >&2; exit 1; }
limits=$PWD/tests/program/instructions
export LC_ALL=C.UTF-8

# ---- what the runs are given

cp "$program" "$scratch/braildesk"
cp bench/contracted.utb "$scratch"
bench/table.sh definitions > "$scratch/definitions.utb"
bench/table.sh many > "$scratch/many.utb"
bench/lines.sh 100000 --ascii > "$scratch/ascii.1"
bench/lines.sh 100000 > "$scratch/quotes.1"
cd "$scratch"
for lines in ascii quotes; do cat $lines.1 $lines.1 > $lines.2; done
: > nothing
characters() { echo $(($(wc -m < "$1") - $(wc -l < "$1"))); } # FILE

sentence="It was 7 o'clock of a very warm evening in the Seeonee hills when Father Wolf woke up from his day's rest."
paragraph="$sentence $sentence $sentence $sentence $sentence"
times=100 short=1000 long=4000
repeat() { for ((k = 0; k < $1; k++)); do printf %s "$2"; done; } # COUNT TEXT
session() { # FILE: answers the requests of standard input, and accepts them all
    ./braildesk session "$1" > replies
    ! grep '^no' replies >&2 || fail 'a request is refused'
}
# A book of so many paragraphs. Every tenth, from the first on, is a heading and has five marks. The program makes the first two, and
# sqlite3 copies their rows, which takes no sync for each.
book() { # FILE COUNT HEADING BODY
    ./braildesk new "$1" > replies
    printf '%s\n' 'supply en' "type end en $3" 'style 1 heading' "type end en $4" | session "$1"
    sqlite3 -batch -bail -init /dev/null "$1" "
        CREATE TEMP TABLE copy AS WITH RECURSIVE n (id) AS (SELECT 1 UNION ALL SELECT id + 1 FROM n WHERE id < $2)
            SELECT id, CASE id % 10 WHEN 1 THEN 1 ELSE 2 END AS first FROM n;
        INSERT INTO para SELECT copy.id, copy.id, tab, original, print, style, volume, struck
            FROM copy JOIN para ON para.id = first WHERE copy.id > 2;
        INSERT INTO cache SELECT id, cells FROM copy JOIN cache ON para = first WHERE id > 2;
        INSERT INTO mark SELECT id / 10 * 5 + k, id, 2 * k, 2 * k + 2, 'look again', 0, 0
            FROM copy, (SELECT column1 AS k FROM (VALUES (1), (2), (3), (4), (5))) WHERE id % 10 = 1;"
    ./braildesk check "$1" > replies
}
book short.book 100 "$sentence" "$sentence"
book long.book 10000 "$sentence" "$sentence"
book ten.book 10 "$sentence" "$sentence"
book more.book 1010 "$sentence" "$sentence"
book pages.book 260 'The Law of the Jungle' "$paragraph"
echo 'volume 21 on' | session pages.book
book texts.book 10 "$sentence" "$sentence"
{
    printf '%s\n' 'table t 2' 'letter a 1' 'letter \x00E9 123456'
    for character in a é; do
        for length in $short $long; do echo "type end t $(repeat $length $character)"; done
    done
} | session texts.book

# requests that are accepted, and the same at another version than the book's, which are read and then refused
repeat $times "type end en $sentence"$'\n' > typing
for ((id = 1; id <= times; id++)); do echo "correct-by Mowgli $id 0 2 It"; done > correcting
for what in typing correcting; do sed 's/^/@0 /' $what > refused.$what; done
# long and short requests, by how many bytes a character has, and replies of these lengths
for length in $short $long; do
    repeat $times "@0 type end t $(repeat $length a)"$'\n' > reading.1.$length
    repeat $times "@0 type end t $(repeat $length é)"$'\n' > reading.2.$length
done
repeat $times 'print 11'$'\n' > writing.1.$short
repeat $times 'print 12'$'\n' > writing.1.$long
repeat $times 'print 13'$'\n' > writing.2.$short
repeat $times 'print 14'$'\n' > writing.2.$long
# short requests with short replies
repeat $times $'version\n' > asking.1
cat asking.1 asking.1 > asking.2

# ---- the runs

# Counts a run of the program in a folder of its own, with a copy of a file there as `book`. While it runs, all folders have names of one
# length, since the length of a path changes where memory is had.
count() { # NAME INPUT BOOK WORD..
    local room
    room=$(mktemp -d run.XXXXXX)
    cp "$3" "$room/book"
    (cd "$room" && env -i PATH=/usr/bin:/bin valgrind --tool=callgrind --callgrind-out-file=counts --compress-strings=no \
        --compress-pos=no ../braildesk "${@:4}" < "../$2" > replies 2> said) || { cat "$room/said" >&2; fail "the run $1 fails"; }
    mv "$room" "$1"
}
export -f count fail
{
    for size in long short; do
        for what in {,refused.}{typing,correcting}; do echo "$size.$what $what $size.book session book"; done
    done
    for table in many contracted definitions; do echo "$table.nothing nothing nothing translate ../$table.utb"; done
    echo "empty.nothing nothing nothing translate ../nothing"
    for input in ascii.1 ascii.2; do
        for table in many contracted definitions; do echo "$table.$input $input nothing translate ../$table.utb"; done
    done
    for input in ascii.1 ascii.2 quotes.1 quotes.2; do echo "@en.$input $input nothing translate @en"; done
    echo 'more.check nothing more.book check book'
    echo 'ten.check nothing ten.book check book'
    for volume in 1 2; do echo "pages.$volume nothing pages.book export book $volume"; done
    for what in asking.{1,2} {reading,writing}.{1,2}.{$short,$long}; do echo "texts.$what $what texts.book session book"; done
} > runs
xargs -P "${JOBS:-$(nproc)}" -L 1 bash -euc 'count "$@"' count < runs || fail 'a run fails'

# ---- what they did

replies() { grep -c "^$2" "$1/replies" || true; } # RUN FRONT: how many replies begin so
wanted() { [ "$(replies "$1" "$3")" -eq "$2" ] || fail "the run $1 has $(replies "$1" "$3") replies $3, and not $2"; } # RUN COUNT FRONT
for size in long short; do
    for what in typing correcting; do
        wanted $size.$what $times ok
        wanted $size.refused.$what $times 'no 16'
    done
done
for number in 1 2; do wanted texts.asking.$number $((number * times)) end; done
for what in {1,2}.{$short,$long}; do
    wanted texts.reading.$what $times 'no 16'
    wanted texts.writing.$what $times end
done
for run in {many,contracted,definitions,@en}.ascii.{1,2} @en.quotes.{1,2}; do
    wanted "$run" 0 no
    wanted "$run" "$(wc -l < "${run#*.}")" ''
done
pages() { tr -cd '\f' < "pages.$1/replies" | wc -c; } # VOLUME

# ---- what they took

# The instructions of a run in memory: all but what is called to read or write the rows of the file.
taken() { # RUN
    awk '
        function of_rows(name) { return name ~ /^(desk_rows|sql_tables|sqlite)/ }
        /^fn=/ { caller = substr($0, 4); is_above = caller ~ /^(desk_|braildesk)/ && !of_rows(caller) }
        /^cfn=/ { called = substr($0, 5) }
        /^calls=/ { getline; if (is_above && of_rows(called)) rows += $2; next }
        /^[0-9]/ { all += $2 }
        END { printf "%d\n", all - rows }' "$1/counts"
}
figure() { # UNITS RUN LESS WHAT: what a unit takes, by which a run differs from a lesser one
    awk -v units="$1" -v run="$(taken "$2")" -v less="$(taken "$3")" -v what="$4" \
        'BEGIN { each = (run - less) / units; printf (each < 100 ? "%.2f\t%s\n" : each < 1000 ? "%.1f\t%s\n" : "%.0f\t%s\n"), each, what }'
}
{
    figure "$(characters ascii.1)" definitions.ascii.2 definitions.ascii.1 'a character by definitions alone, with the signs of numbers and capitals'
    figure "$(characters ascii.1)" @en.ascii.2 @en.ascii.1 'a character by the supplied table, with numeric mode too'
    figure "$(characters quotes.1)" @en.quotes.2 @en.quotes.1 'a character by the supplied table, in lines with quotes beyond ASCII'
    figure "$(characters ascii.1)" contracted.ascii.2 contracted.ascii.1 'a character by a table with 353 rules'
    figure "$(characters ascii.1)" many.ascii.2 many.ascii.1 'a character by a table of 20,000 lines'
    figure 1 definitions.nothing empty.nothing 'reading a table of 57 lines, without rules'
    figure 1 contracted.nothing empty.nothing 'reading a table of 411 lines, with rules'
    figure 1 many.nothing empty.nothing 'reading a table of 20,000 lines, with rules'
    for size in short long; do
        [ $size = short ] && where='a book of 100 paragraphs' || where='a book of 10,000 paragraphs'
        figure $times $size.typing $size.refused.typing "a paragraph typed in $where"
        figure $times $size.correcting $size.refused.correcting "a correction in $where"
    done
    figure $times texts.asking.2 texts.asking.1 'a query for the version, with its reply'
    for bytes in 1 2; do
        [ $bytes = 1 ] && of='of characters of one byte' || of='of characters of two bytes'
        units=$((times * bytes * (long - short)))
        figure $units texts.reading.$bytes.$long texts.reading.$bytes.$short "a byte of a request that types, $of"
        figure $units texts.writing.$bytes.$long texts.writing.$bytes.$short "a byte of a reply that shows a print, $of"
    done
    figure $(($(pages 2) - $(pages 1))) pages.2 pages.1 'a page of a volume'
    figure 1000 more.check ten.check 'a paragraph of a book that is made of its rows, with their braille'
} > figures

if [ "${1:-}" = --measure ]; then
    echo '# How many instructions each unit of the work takes at most, and how many were measured: tests/program/instructions.sh'
    echo '# compares these, and with --measure prints them anew, each limit 5 % above what is measured.'
    echo '#     limit   measured'
    awk -F '\t' '{ form = $1 < 100 ? "%11.2f" : $1 < 1000 ? "%11.1f" : "%11.0f"; printf form form "  %s\n", 1.05 * $1, $1, $2 }' figures
    exit
fi

awk -F '\t' '
    /^#/ { next }
    FILENAME == ARGV[1] { split($0, field, " +"); what = $0; sub(/^ *[0-9.]+ +[0-9.]+ +/, "", what); limit[what] = field[2]; next }
    !($2 in limit) { printf "it has no limit in tests/program/instructions: %s\n", $2 > "/dev/stderr"; bad++; next }
    {
        most = limit[$2]; delete limit[$2]
        if ($1 > most + 0) { printf "above its limit of %s: %s instructions for %s\n", most, $1, $2 > "/dev/stderr"; bad++ }
        else printf "ok  %s of %s instructions for %s%s\n", $1, most, $2, $1 < 0.9 * most ? ", which is far below: lower the limit" : ""
    }
    END {
        for (what in limit) { printf "tests/program/instructions has a limit for what is not counted: %s\n", what > "/dev/stderr"; bad++ }
        exit bad > 0
    }' "$limits" figures || fail 'the counts of instructions and their limits in tests/program/instructions differ'
