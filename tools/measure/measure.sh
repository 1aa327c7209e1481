#!/bin/sh
# Measures the program over real files beside a store in the same format that is written by hand in C, without proofs
# (`plain.c`), and prints tables in Markdown:
# `tools/measure/measure.sh [-c] [-d DIVISOR] [--peers] [--long] [--pages] [--copies] [ALTCTL]`.
# Both get the same lines, and all answers of both are compared with what is expected. A time is the middle one of
# three. With -c it is the least one, and only that in which the process had a processor, which other work on the
# machine disturbs less; a DIVISOR of 1 to 16 makes all of it that many times smaller. With --peers loads and gets are
# measured over LMDB and SQLite, too (`peers.c`), where Debian's packages liblmdb-dev and libsqlite3-dev are installed.
# With --long values of 2,000 bytes are measured instead; that needs about 2 GB for temporary files. With --pages parts
# of versions are measured instead: pages, ranges and differences, by the program alone, with --peers pages of LMDB and
# SQLite, too. With --copies copies are measured instead, beside `cp` and, with --peers, `mdb_copy -c` and `VACUUM
# INTO`, and openings of a store from a cold disk before and after it was copied; that needs about 4 GB. How much a
# record takes is measured by `measure_sizes.py`. It stands beside the gate: times are looked at, never tested.
set -eu

usage() {
    echo 'usage: tools/measure/measure.sh [-c] [-d DIVISOR] [--peers] [--long] [--pages] [--copies] [ALTCTL]' >&2
    exit 2
}

fail() {
    echo "measure: $1" >&2
    exit 1
}

clock=1
divisor=1
peers=
long=
pages=
copies=
while [ $# -gt 0 ]; do
    case $1 in
    -c) clock=2 ;;
    -d)
        [ $# -gt 1 ] || usage
        divisor=$2
        shift
        ;;
    --peers) peers=1 ;;
    --long) long=1 ;;
    --pages) pages=1 ;;
    --copies) copies=1 ;;
    -*) usage ;;
    *) break ;;
    esac
    shift
done
[ $# -le 1 ] && [ "$divisor" -ge 1 ] && [ "$divisor" -le 16 ] || usage

rounds=3
blocks=$((65536 / divisor))
records=$((100000 / divisor))
versions=$((100 / divisor))
changed=100
commits=$((2000 / divisor))
large_blocks=$((262144 / divisor))
large_records=$((1000000 / divisor))
large_gets=$((100000 / divisor))
markings=1000
puts=$((20000 / divisor))
long_blocks=$((131072 / divisor))
long_records=$((100000 / divisor))
long_markings=100
many_pages=1000
page=100
design_changes=1000
many_diffs=100
# A million records take some 89,200 blocks, if their keys came in random order.
full_blocks=$((98304 / divisor))
quarter_blocks=$((356352 / divisor))

tools=$(cd "$(dirname "$0")/.." && pwd)
altctl=${1:-$tools/../altctl}
work=$(mktemp -d)
pid=
options=

finish() {
    exec 3>&-
    [ -z "$pid" ] || kill "$pid" 2>/dev/null || true
    rm -rf "$work"
}
trap finish EXIT
trap 'exit 1' HUP INT TERM

# --- a program that answers lines ----------------------------------------------------------------

# Makes a store of so many blocks, and starts the program on it. Its input stays open until `stop`.
begin() {
    rm -f "$work/store"
    "$program" create "$work/store" "$1" >/dev/null
    start
}

# Starts the program with its options, if it has some.
start() {
    "$program" run $options "$work/store" <"$work/input" >>"$work/answers" 2>>"$work/faults" &
    pid=$!
    exec 3>"$work/input"
    ask ready
}

# Ends the program.
end() {
    exec 3>&-
    wait "$pid" || fail "a program ended with status $?"
    pid=
}

# The same of one of the two, which have to find the same in the store that it leaves.
stop() {
    end
    "$altctl" check "$work/store" >"$work/checked"
    "$work/plain" check "$work/store" | cmp -s - "$work/checked" || fail 'the programs find other things in one store'
}

# Has the lines of a name answered, and compares what comes with the answers of that name. The nanoseconds are then in
# `took`, and the blocks that were read and written in `reads` and `writes`.
ask() {
    : >"$work/answers"
    was_read=$(count_of rchar)
    was_written=$(count_of wchar)
    times=$("$work/timed" ask "$pid" "$work/$1.lines" "$work/answers" "$(wc -c <"$work/$1.answers")") ||
        fail "no answers to $1: $(tail -n 1 "$work/answers" | head -c 200) $(cat "$work/faults")"
    cmp -s "$work/$1.answers" "$work/answers" || fail "other answers than in $1"
    took=$(echo "$times" | cut -d ' ' -f $clock)
    reads=$((($(count_of rchar) - was_read - $(wc -c <"$work/$1.lines") + 2048) / 4096))
    writes=$((($(count_of wchar) - was_written - $(wc -c <"$work/answers") + 2048) / 4096))
}

# A count of the process: `rchar`, all bytes that it read so far, or `wchar`, all that it wrote.
count_of() {
    sed -n "s/^$1: //p" "/proc/$pid/io"
}

# How many blocks are spare: what is free after a marking. The lines are put, and no answers are compared.
spare() {
    : >"$work/answers"
    printf 'reclaim\nfree\n' >&3
    until grep -q '^free ' "$work/answers"; do sleep 0.01; done
    sed -n 's/^free //p' "$work/answers"
}

# --- what was measured ---------------------------------------------------------------------------

# Adds to what is known of a row: what it is, of how many, a time or the memory of a process, and its blocks.
add() {
    echo "$1|$name|$2|$3|$4|$5|$6" >>"$work/$table"
}

# Has the lines of a name answered as a row.
measure() {
    ask "$1"
    add "$2" time "$3" "$took" "$reads" "$writes"
}

# The same of a load into an empty store, with the blocks of the tree that stands then.
measure_load() {
    measure "$1" "$2" "$3"
    echo "$2|$name|$writes|$(($4 - 34 - $(spare)))" >>"$work/$table.loads"
}

# Functions for awk: a number as it is read easily, 1,000,000, and a time, or memory, in a unit of its size.
functions='
function grouped(it) {
    while (match(it, /[0-9][0-9][0-9][0-9](,|$)/)) it = substr(it, 1, RSTART) "," substr(it, RSTART + 1)
    return it
}
function short(kind, it) {
    if (kind == "memory") return sprintf("%.1f MB", it * 1.024e-3)
    if (it >= 1e9) return sprintf("%.2f s", it / 1e9)
    if (it >= 1e6) return sprintf("%.1f ms", it / 1e6)
    return sprintf("%.2f µs", it / 1e3)
}'

grouped() {
    awk -v it="$1" "$functions"'BEGIN { print grouped(it) }'
}

# What was measured for the table, in the order of its rows: of each row and program the middle one by time, or the
# least.
chosen() {
    LC_ALL=C sort -s -t '|' -k 5,5n "$work/$table" | awk -F '|' -v rows="$work/$table" -v clock=$clock '
        { it = $1 "|" $2; found[it, ++count[it]] = $0 }
        END {
            while ((getline line < rows) > 0) {
                split(line, words, "|")
                it = words[1] "|" words[2]
                if (!(it in told)) print found[it, clock == 1 ? int((count[it] + 1) / 2) : 1]
                told[it]
            }
        }'
}

# The rows of both programs, under a title.
print_rows() {
    echo
    echo "| $1 | altctl | Each | plain | Ratio | Blocks read | Written | By plain: read | Written |"
    echo '|---|---|---|---|---|---|---|---|---|'
    chosen | awk -F '|' "$functions"'
        { blocks[$2, $1] = $3 == "memory" ? " | " : grouped($6) " | " grouped($7) }
        $2 == "altctl" { order[++count] = $1; kind[$1] = $3; many[$1] = $4; took[$1] = $5 }
        $2 == "plain" { beside[$1] = $5 }
        END {
            for (i = 1; i <= count; i++) {
                it = order[i]
                each = many[it] > 1 ? short(kind[it], took[it] / many[it]) : ""
                printf "| %s | %s | %s | %s | %.2f | %s | %s |\n", it, short(kind[it], took[it]), each,
                    short(kind[it], beside[it]), took[it] / beside[it], blocks["altctl", it], blocks["plain", it]
            }
        }'
}

# The rows that other stores have, too.
print_peers() {
    echo
    echo "| $1 | altctl | LMDB | Ratio | SQLite | Ratio |"
    echo '|---|---|---|---|---|---|'
    chosen | awk -F '|' "$functions"'
        function beside(name, what) {
            if (!((name, what) in took)) return "- | -"
            return sprintf("%s | %.2f", short("time", took[name, what]), took["altctl", what] / took[name, what])
        }
        { took[$2, $1] = $5 }
        $2 == "altctl" { order[++count] = $1 }
        $2 == "lmdb" || $2 == "sqlite" { is_shared[$1] }
        END {
            for (i = 1; i <= count; i++) {
                it = order[i]
                if (!(it in is_shared)) continue
                printf "| %s | %s | %s | %s |\n", it, short("time", took["altctl", it]), beside("lmdb", it),
                    beside("sqlite", it)
            }
        }'
}

# The rows of parts: for each line the time and the blocks that were read, or the memory of all of them.
print_parts() {
    echo
    echo "| $1 | altctl, each | Blocks read, each | LMDB, each | SQLite, each |"
    echo '|---|---|---|---|---|'
    chosen | awk -F '|' "$functions"'
        function few(it) { return it >= 100 ? grouped(sprintf("%.0f", it)) : it > 0 ? sprintf("%.1f", it) : 0 }
        function each(name, what) { return (name, what) in took ? short("time", took[name, what] / many[what]) : "-" }
        { took[$2, $1] = $5 }
        $2 == "altctl" { order[++count] = $1; kind[$1] = $3; many[$1] = $4; read[$1] = $6 }
        END {
            for (i = 1; i <= count; i++) {
                it = order[i]
                if (kind[it] == "memory")
                    printf "| %s | %s | | | |\n", it, short("memory", took["altctl", it])
                else
                    printf "| %s | %s | %s | %s | %s |\n", it, each("altctl", it), few(read[it] / many[it]),
                        each("lmdb", it), each("sqlite", it)
            }
        }'
}

# The rows of copies and openings, with the blocks of the file that was made or opened.
print_copies() {
    echo
    echo "| $1 | Time | Blocks of the file |"
    echo '|---|---|---|'
    chosen | awk -F '|' "$functions"'{ printf "| %s | %s | %s |\n", $1, short($3, $5), grouped($6) }'
}

# The blocks that the loads of the table wrote, beside those of the trees at their ends.
print_loads() {
    echo
    echo '| Loads | Blocks of the tree | Written | For each of the tree | By plain |'
    echo '|---|---|---|---|---|'
    awk -F '|' "$functions"'
        !($1 in is_known) { order[++count] = $1; is_known[$1] }
        { written[$2, $1] = $3; tree[$2, $1] = $4 }
        END {
            for (i = 1; i <= count; i++) {
                it = order[i]
                ours = written["altctl", it] / tree["altctl", it]
                printf "| %s | %s | %s | %.2f | %.2f |\n", it, grouped(tree["altctl", it]),
                    grouped(written["altctl", it]), ours, written["plain", it] / tree["plain", it]
            }
        }' "$work/$table.loads"
}

# --- lines, and what they are answered -----------------------------------------------------------

# Numbers from 1 to $1, in the order $2: `rising`, or `random`, which is the same in each run.
numbers() {
    awk -v count="$1" -v order="$2" '
        BEGIN {
            for (i = 1; i <= count; i++) number[i] = i
            seed = 20240229
            for (i = count; order == "random" && i > 1; i--) {
                seed = (seed * 16807) % 2147483647
                j = 1 + seed % i
                kept = number[i]; number[i] = number[j]; number[j] = kept
            }
            for (i = 1; i <= count; i++) printf "%d\n", number[i]
        }'
}

# Puts into an alternative: for each number a value of so many bytes, which are another number in digits.
put_lines() {
    awk -v alt="$1" -v size="$2" -v by="$3" '{ printf "put %s 1 %d %0*d\n", alt, $1, size, $1 + by }'
}

# Lines of which each is answered `ok`.
all_ok() {
    cat >"$work/$1.lines"
    sed 's/.*/ok/' "$work/$1.lines" >"$work/$1.answers"
}

# The same line for each design, and the same answer for each.
for_versions() {
    awk -v line="$2" -v count="$versions" \
        'BEGIN { for (i = 1; i <= count; i++) { it = line; sub(/ALT/, "v" i, it); print it } }' >"$work/$1.lines"
    for version in $(seq "$versions"); do cat "$work/one"; done >"$work/$1.answers"
}

# Gets of the numbers of a file, whose values have so many bytes.
prepare_gets() {
    awk '{ printf "get top 1 %d\n", $1 }' "$work/$2" >"$work/$1.lines"
    awk -v size="$3" '{ printf "value %0*d\n", size, $1 }' "$work/$2" >"$work/$1.answers"
}

# The lines on records of 200 bytes. Each design has changes of its own, and as many are made in the parent, of which
# a tenth are in conflict with those of each design.
prepare() {
    numbers "$records" random >"$work/random"
    numbers "$records" rising >"$work/rising"
    for order in random rising; do
        { put_lines top 200 0 <"$work/$order" && echo commit; } | all_ok "load_$order"
    done
    put_lines top 200 0 <"$work/random" |
        awk '{ print } NR % 100 == 0 { print "commit" } END { if (NR % 100) print "commit" }' | all_ok load_hundreds
    prepare_gets gets random 200
    sed 's/top/nowhere/' "$work/gets.lines" >"$work/refused.lines"
    sed 's/.*/error 1 NoSuchAlternative/' "$work/gets.lines" >"$work/refused.answers"
    echo list top >"$work/list.lines"
    awk '{ printf "record 1 %d %0200d\n", $1, $1 } END { print "end " NR }' "$work/rising" >"$work/list.answers"

    head -n "$changed" "$work/random" >"$work/theirs"
    tail -n +$((changed - changed / 10 + 1)) "$work/random" | head -n "$changed" >"$work/mine"
    sort -n "$work/mine" "$work/theirs" | uniq -d >"$work/both"
    {
        for version in $(seq "$versions"); do echo "new v$version top"; done
        put_lines top 200 1 <"$work/theirs"
        for version in $(seq "$versions"); do put_lines "v$version" 200 2 <"$work/mine"; done
        echo commit
    } | all_ok versions
    sort -n "$work/mine" |
        awk '{ printf "change 1 %d %0200d %0200d\n", $1, $1, $1 + 2 } END { print "end " NR }' >"$work/one"
    for_versions changes 'changes ALT'
    awk '{ printf "conflict 1 %d %0200d %0200d %0200d\n", $1, $1, $1 + 1, $1 + 2 } END { print "end " NR }' \
        "$work/both" >"$work/one"
    for_versions conflicts 'conflicts ALT'
    echo "ok $changed" >"$work/one"
    for_versions merges "merge ALT$(awk '{ printf " 1:%d=theirs", $1 }' "$work/both")"
    head -n "$commits" "$work/random" | put_lines w 200 4 |
        awk '{ print "new w top"; print; print "post w"; print "drop w" }' | all_ok posts
    head -n "$commits" "$work/random" | put_lines top 200 3 | awk '{ print; print "commit" }' | all_ok commits
}

# The lines on a large store, of records of 16 bytes.
prepare_large() {
    for order in rising random; do
        numbers "$large_records" $order >"$work/large_$order"
        { put_lines top 16 0 <"$work/large_$order" && echo commit; } | all_ok "large_load_$order"
        awk 'NR % 10 == 1' "$work/large_$order" | head -n "$large_gets" >"$work/tenth"
        prepare_gets "large_gets_$order" tenth 16
    done
    yes reclaim | head -n $markings | all_ok markings
    echo "grow $((2 * blocks))" | all_ok growth
}

# The lines on values of 2,000 bytes.
prepare_long() {
    numbers "$long_records" random >"$work/long"
    { put_lines top 2000 0 <"$work/long" && echo commit; } | all_ok long_load
    prepare_gets long_gets long 2000
    sort -n "$work/long" | awk '{ printf "record 1 %d %02000d\n", $1, $1 } END { print "end " NR }' \
        >"$work/long_list.answers"
    echo list top >"$work/long_list.lines"
    yes reclaim | head -n $long_markings | all_ok long_markings
}

# The lines on pages of a map of n records of 16 bytes, numbered from 1 on, and on all of them.
prepare_pages() {
    numbers "$1" random >"$work/numbers_$1"
    { put_lines top 16 0 <"$work/numbers_$1" && echo commit; } | all_ok "load_$1"
    awk -v last=$(($1 - page + 1)) -v many=$many_pages '
        $1 <= last { first[count++] = $1 }
        END { for (i = 0; i < many; i++) print first[i % count] }' "$work/numbers_$1" >"$work/firsts"
    awk -v page=$page '{ printf "next top 1 %d %d\n", $1, page }' "$work/firsts" >"$work/next_$1.lines"
    awk -v page=$page '{ printf "list top 1 %d %d\n", $1, $1 + page - 1 }' "$work/firsts" >"$work/range_$1.lines"
    awk -v page=$page '
        { for (i = $1; i < $1 + page; i++) printf "record 1 %d %016d\n", i, i; print "end " page }' "$work/firsts" |
        tee "$work/next_$1.answers" >"$work/range_$1.answers"
    echo list top >"$work/list_$1.lines"
    echo "next top 0 0 $1" >"$work/all_$1.lines"
    awk -v count="$1" '
        BEGIN { for (i = 1; i <= count; i++) printf "record 1 %d %016d\n", i, i; print "end " count }' |
        tee "$work/list_$1.answers" >"$work/all_$1.answers"
}

# The lines that go through all of them by a thousand.
prepare_walk() {
    awk -v count="$1" 'BEGIN { for (i = 1; i <= count; i += 1000) printf "next top 1 %d 1000\n", i }' \
        >"$work/walk.lines"
    awk -v count="$1" '
        BEGIN {
            for (i = 1; i <= count; i++) {
                printf "record 1 %d %016d\n", i, i
                if (i % 1000 == 0 || i == count) print "end " (i % 1000 == 0 ? 1000 : i % 1000)
            }
        }' >"$work/walk.answers"
}

# Answers of a difference: of each number its row, of two columns of values, where they differ.
differing() {
    sort -n | awk '{ print "change 1", $1, $2, $3 } END { print "end " NR }' >"$work/one"
    for _ in $(seq $many_diffs); do cat "$work/one"; done
}

# Two designs with changes of their own, half of them of the same records. The file `differ` has of each record its
# number and its values in top, and in both.
prepare_designs() {
    head -n $design_changes "$work/numbers_$1" | awk '{ print $1, 1 }' >"$work/designs"
    tail -n +$((design_changes / 2 + 1)) "$work/numbers_$1" | head -n $design_changes | awk '{ print $1, 2 }' \
        >>"$work/designs"
    {
        printf 'new d1 top\nnew d2 top\n'
        awk '{ printf "put d%d 1 %d %016d\n", $2, $1, $1 + $2 }' "$work/designs"
        echo commit
    } | all_ok designs
    awk '
        { found[$1, $2]; is_there[$1] }
        END {
            for (it in is_there)
                printf "%d %016d %016d %016d\n", it, it, it + ((it, 1) in found), it + 2 * ((it, 2) in found)
        }' "$work/designs" >"$work/differ"
    same_line changes 'changes d1'
    awk '$2 != $3 { print $1, $2, $3 }' "$work/differ" | differing >"$work/changes.answers"
    same_line diff 'diff d1 d2'
    awk '$3 != $4 { print $1, $3, $4 }' "$work/differ" | differing >"$work/diff.answers"
    tenth=$(($1 / 10))
    same_line diff_part "diff d1 d2 1 1 $tenth"
    awk -v last=$tenth '$1 <= last && $3 != $4 { print $1, $3, $4 }' "$work/differ" | differing \
        >"$work/diff_part.answers"
}

same_line() {
    yes "$2" | head -n $many_diffs >"$work/$1.lines"
}

# --- what is measured ----------------------------------------------------------------------------

# All rows of records of 200 bytes, of one program.
measure_records() {
    of=$(grouped "$records")
    begin "$blocks"
    measure_load load_random "$of puts in random order, one commit" "$records" "$blocks"
    measure gets "$of gets" "$records"
    measure refused "$of lines that are refused" "$records"
    measure list "a list of $of records" 1
    ask versions
    measure changes "changes of a design, $changed on each side" "$versions"
    measure conflicts "conflicts of a design, $((changed / 10)) of them" "$versions"
    measure merges "a merge of $changed changes" "$versions"
    measure posts 'a design made, changed at one record, posted and dropped' "$commits"
    stop
    begin "$blocks"
    measure_load load_rising "$of puts by rising keys, one commit" "$records" "$blocks"
    stop
    begin "$blocks"
    measure_load load_hundreds "$of puts in random order, a commit after each 100" "$records" "$blocks"
    measure commits "$(grouped "$commits") times a put and a commit" "$commits"
    stop
}

# How many blocks an opening reads.
opening_reads() {
    start >&2
    echo $(($(count_of rchar) / 4096))
    end
}

# A store of many records, put in one order: its openings, gets of every tenth record in the same order, markings.
measure_order() {
    begin "$large_blocks"
    of=$(grouped "$large_records")
    measure_load "large_load_$1" "$1 keys: $of puts, one commit" "$large_records" "$large_blocks"
    stop
    opened=$(opening_reads)
    for opening in $(seq $rounds); do
        times=$("$work/timed" run "$program" run "$work/store")
        add "$1 keys: open" time 1 "$(echo "$times" | cut -d ' ' -f $clock)" "$opened" 0
        add "$1 keys: the greatest memory of that" memory 1 "$(echo "$times" | cut -d ' ' -f 3)" 0 0
    done
    start
    add "$1 keys: memory after it" memory 1 "$(sed -n 's/^VmRSS:[^0-9]*\([0-9]*\) kB/\1/p' "/proc/$pid/status")" 0 0
    measure "large_gets_$1" "$1 keys: $(grouped "$large_gets") gets" "$large_gets"
    measure markings "$1 keys: $(grouped $markings) markings" "$markings"
    stop
}

free_of_store() {
    "$program" check "$work/store" | sed -n 's/^free //p'
}

# Puts records by rising keys and commits, until so many blocks are spare.
fill_to() {
    left=$(($(spare) - $1))
    while [ "$left" -gt 4 ]; do
        {
            numbers $((left * 8)) rising | awk -v last="$last" '{ print last + $1 }' | put_lines top 16 0
            echo commit
        } | all_ok fill
        ask fill
        last=$((last + left * 8))
        left=$(($(spare) - $1))
    done
}

# Puts of a few existing keys, all over the map, without a commit. The first of each key takes blocks beside the
# committed ones, and is not measured.
measure_margin() {
    fill_to $((blocks * $1 / 100))
    several=$((blocks / 1024))
    numbers "$several" random | awk -v step=$((last / several)) '{ print $1 * step }' >"$work/keys"
    put_lines top 16 0 <"$work/keys" | all_ok first
    ask first
    awk -v puts="$puts" '{ key[NR] = $1 } END { for (i = 0; i < puts; i++) print key[1 + i % NR] }' "$work/keys" |
        put_lines top 16 1 | all_ok margin
    measure margin "$(grouped "$puts") puts of few keys, $1 % of $(grouped "$blocks") blocks spare" "$puts"
}

# All rows of a large store, and of one that has few blocks left, of one program.
measure_large() {
    measure_order rising
    measure_order random
    begin "$blocks"
    last=0
    measure_margin 10
    measure_margin 1
    stop
    begin "$blocks"
    measure growth "a growth from $(grouped "$blocks") blocks to twice as many" 1
    stop
    rm -f "$work/store"
}

# Values of 2,000 bytes in a store: a load, gets, a list, markings, and an opening.
measure_long() {
    of=$(grouped "$long_records")
    begin "$long_blocks"
    measure_load long_load "$of puts in random order, one commit" "$long_records" "$long_blocks"
    measure long_gets "$of gets" "$long_records"
    measure long_list 'a list' 1
    measure long_markings "$(grouped $long_markings) markings" "$long_markings"
    stop
    times=$("$work/timed" run "$program" run "$work/store")
    opened=$(opening_reads)
    add 'open' time 1 "$(echo "$times" | cut -d ' ' -f $clock)" "$opened" 0
    add 'the greatest memory of that' memory 1 "$(echo "$times" | cut -d ' ' -f 3)" 0 0
}

# Pages, ranges and the list of a map of n records. None of them profits from what a load leaves in memory.
measure_pages() {
    of=$(grouped "$1")
    [ "$name" = altctl ] || rm -f "$work/store"*
    if [ "$name" = altctl ]; then begin "$2"; else start; fi
    ask "load_$1"
    end
    for round in $(seq $rounds); do
        start
        measure "next_$1" "a page of $page of $of records" $many_pages
        [ "$name" != altctl ] || measure "range_$1" "a range of $page of $of records" $many_pages
        if [ "$name" = altctl ]; then all=list; else all=all; fi
        measure "${all}_$1" "all $of records" 1
        end
    done
    [ "$name" != altctl ] || measure_uncached "$1"
}

# Pages by the program without a cache.
measure_uncached() {
    options='--cache 0'
    for round in $(seq $rounds); do
        start
        measure "next_$1" "a page of $page of $of records, without a cache" $many_pages
        end
    done
    options=
}

# All records by the lines of a name, and the greatest memory that the program has meanwhile.
measure_memory() {
    for round in $(seq $rounds); do
        start
        echo 5 >"/proc/$pid/clear_refs"
        measure "$1" "$2" 1
        add "$2: the greatest memory" memory 1 "$(sed -n 's/^VmHWM:[^0-9]*\([0-9]*\) kB/\1/p' "/proc/$pid/status")" 0 0
        end
    done
}

# How many rows each answer of a name has.
rows_of() {
    grouped "$(tail -n 1 "$work/$1.answers" | cut -d ' ' -f 2)"
}

# Differences of two designs over the map that was loaded last.
measure_designs() {
    start
    ask designs
    end
    for round in $(seq $rounds); do
        start
        measure changes "what a design changed, $(grouped $design_changes) records" $many_diffs
        measure diff "what differs between two designs, $(rows_of diff) records" $many_diffs
        measure diff_part "the same in a tenth of the numbers, $(rows_of diff_part) records" $many_diffs
        end
    done
}

# Loads and gets of records of 200 bytes over another store.
measure_peer() {
    of=$(grouped "$records")
    rm -f "$work/store"*
    start
    measure load_random "$of puts in random order, one commit" "$records"
    measure gets "$of gets" "$records"
    end
    rm -f "$work/store"*
    start
    measure load_hundreds "$of puts in random order, a commit after each 100" "$records"
    measure commits "$(grouped "$commits") times a put and a commit" "$commits"
    end
    rm -f "$work/store"*
}

# Compiles it over a store, with the words after the second, and has it measured by the function of the second, where
# the store is installed.
try_peer() {
    name=$1
    program=$work/$1
    measuring=$2
    shift 2
    if ! "${CC:-cc}" -O3 -o "$program" "$tools/measure/peers.c" "$@" 2>"$work/faults"; then
        echo "measure: $name is left out: it is not installed" >&2
        return
    fi
    $measuring
}

measure_peer_often() {
    for round in $(seq $rounds); do measure_peer; done
}

measure_both_pages() {
    measure_pages $few_records $few_blocks
    measure_pages "$large_records" "$large_blocks"
}

# Has a command make the file `copy`, as a row.
measure_copy() {
    what=$1
    shift
    for round in $(seq $rounds); do
        rm -f "$work/copy"
        times=$("$work/timed" run "$@")
        [ -s "$work/copy" ] || fail "no file by $what"
        add "$what" time 1 "$(echo "$times" | cut -d ' ' -f $clock)" "$(blocks_of "$work/copy")" 0
    done
}

blocks_of() {
    echo $(($(stat -c %s "$1") / 4096))
}

# Opens a store of which no page is in memory, by the words after the second, as a row.
measure_cold() {
    what=$1
    file=$2
    shift 2
    for round in $(seq $rounds); do
        sync "$file"
        dd if="$file" iflag=nocache count=0 2>"$work/faults" || fail "$(cat "$work/faults")"
        times=$("$work/timed" run "$program" check "$@" "$file")
        add "$what" time 1 "$(echo "$times" | cut -d ' ' -f $clock)" "$(blocks_of "$file")" 0
    done
}

# Makes a store of this many blocks, puts the records in random order, commits, and measures copies of it.
measure_copies_of() {
    begin "$1"
    ask "large_load_random"
    end
    used=$(($1 - $(free_of_store)))
    of="a store with $((100 * used / $1)) % of its blocks in use"
    measure_copy "$of: cp, and a sync" sh -c "cp '$work/store' '$work/copy' && sync '$work/copy'"
    measure_copy "$of: copy to as few blocks as are in use" "$program" copy "$work/store" "$work/copy" "$used"
    measure_copy "$of: copy" "$program" copy "$work/store" "$work/copy"
}

# Opens the store from a cold disk, then its last copy, then its smallest one.
measure_openings() {
    for option in '' --no-lock; do
        measure_cold "a cold opening${option:+, $option}" "$work/store" $option
        measure_cold "a cold opening of its copy${option:+, $option}" "$work/copy" $option
    done
    mv "$work/copy" "$work/store"
    "$program" copy "$work/store" "$work/copy" "$used" >"$work/answers"
    for option in '' --no-lock; do
        measure_cold "a cold opening of its smallest copy${option:+, $option}" "$work/copy" $option
    done
    rm -f "$work/store" "$work/copy"
}

# The same records in LMDB, copied by its own program.
measure_lmdb_copy() {
    start
    ask large_load_random
    end
    measure_copy 'LMDB: mdb_copy -c, and a sync' sh -c "mdb_copy -n -c '$work/store' '$work/copy' && sync '$work/copy'"
    rm -f "$work/store"* "$work/copy"
}

measure_sqlite_copy() {
    start
    ask large_load_random
    end
    into="import sqlite3, sys; sqlite3.connect(sys.argv[1]).execute('VACUUM INTO ?', (sys.argv[2],))"
    measure_copy 'SQLite: VACUUM INTO, and a sync' \
        sh -c "python3 -c \"\$0\" '$work/store' '$work/copy' && sync '$work/copy'" "$into"
    rm -f "$work/store"* "$work/copy"
}

# Lets both programs do the same, one after the other, so many times.
both() {
    for round in $(seq "$2"); do
        for name in altctl plain; do
            program=$work/plain
            [ "$name" = plain ] || program=$altctl
            "$1"
        done
    done
}

"${CC:-cc}" -O3 -o "$work/plain" "$tools/measure/plain.c"
"${CC:-cc}" -O2 -o "$work/timed" "$tools/measure/timed.c"
"$altctl" --help >/dev/null
[ $# -gt 0 ] || altctl=$tools/../crates/altctl/out/altctl
mkfifo "$work/input"
echo checks top >"$work/ready.lines"
echo end 0 >"$work/ready.answers"
"$tools/faults/compare.py" --plain -n 20 "$work/plain" >"$work/compared" ||
    fail 'plain.c answers otherwise than compare.py expects'

if [ -n "$long" ]; then
    table=long
    prepare_long
    both measure_long $rounds
    print_rows "$(grouped "$long_records") values of 2,000 bytes"
    print_loads
    exit 0
fi
if [ -n "$pages" ]; then
    table=pages name=altctl program=$altctl
    few_records=1000 few_blocks=1024
    prepare_pages $few_records
    prepare_pages "$large_records"
    prepare_walk "$large_records"
    prepare_designs "$large_records"
    measure_both_pages
    measure_memory walk "all $(grouped "$large_records") records, by pages of 1,000"
    measure_memory "list_$large_records" "all $(grouped "$large_records") records"
    measure_designs
    [ -z "$peers" ] || try_peer lmdb measure_both_pages -DLMDB -llmdb
    [ -z "$peers" ] || try_peer sqlite measure_both_pages -lsqlite3
    print_parts 'Parts of versions'
    exit 0
fi
if [ -n "$copies" ]; then
    table=copies name=altctl program=$altctl
    numbers "$large_records" random >"$work/large_random"
    { put_lines top 16 0 <"$work/large_random" && echo commit; } | all_ok large_load_random
    measure_copies_of "$full_blocks"
    measure_copies_of "$quarter_blocks"
    measure_openings
    if [ -n "$peers" ] && ! command -v mdb_copy >/dev/null; then
        echo 'measure: lmdb is left out: mdb_copy is not installed' >&2
    elif [ -n "$peers" ]; then
        try_peer lmdb measure_lmdb_copy -DLMDB -llmdb
    fi
    if [ -n "$peers" ] && ! python3 -c 'import sqlite3' 2>"$work/faults"; then
        echo 'measure: sqlite is left out: it is not there in Python' >&2
    elif [ -n "$peers" ]; then
        try_peer sqlite measure_sqlite_copy -lsqlite3
    fi
    print_copies "$(grouped "$large_records") records"
    exit 0
fi
table=small
prepare
both measure_records $rounds
[ -z "$peers" ] || try_peer lmdb measure_peer_often -DLMDB -llmdb
[ -z "$peers" ] || try_peer sqlite measure_peer_often -lsqlite3
print_rows "$(grouped "$records") records of 200 bytes"
print_loads
[ -z "$peers" ] || print_peers "$(grouped "$records") records of 200 bytes"
table=large
prepare_large
both measure_large 1
print_rows "A store of $(grouped "$large_blocks") blocks"
print_loads
