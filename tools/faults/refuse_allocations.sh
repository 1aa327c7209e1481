#!/bin/sh
# Tries what happens where memory is wanting. Two programs are run again and again, and one allocation is refused in
# each run, the first, the second and so on, until a run meets no refusal.
#
# The program `refused` carries out one list of commands over disks in memory: by calls, as a list, as lines, and up
# to its merge. It looks itself whether anything was lost at the refusal, asks once more, and says what was refused:
# an `open`, a merge, a grow, a list of commands, a query that lists, or a line, and nothing else. Its output is the
# same each time.
#
# The program `altctl` answers two sessions of lines over a file. Each line is answered as in a run without refusal,
# or with `error 16 Memory`. After that the store is as before the line, the file is as long, and the same line gets
# its usual answer. In the end the file shows the usual, with the usual slots byte by byte: a block that no version
# needs may have other bytes, since it is written where there is no memory for it to wait. A run that ends before its
# first line leaves the file as it was, and the file opens again. Nor does a run write beside one that has locked the
# file.
#
# It needs a C compiler, and programs that are linked against glibc. Its verdict is its exit status.
set -eu

top=$(cd "$(dirname "$0")/../.." && pwd)
program=$top/crates/altctl/out/altctl
commands=$top/crates/refused
room=$(mktemp -d)
trap 'rm -rf "$room"' EXIT
# The program may end before it reads a line.
trap '' PIPE

# Each line of the first session, and the last line of its answer.
long=$(printf '%02500d' 7)
cat >"$room/session.a" <<END
new a top => ok
put top 1 1 x => ok
put a 1 1 y => ok
put a 1 9 $long => ok
put top 1 2 x => ok
put top 1 3 x => ok
put top 1 4 x => ok
put top 1 5 $long => ok
put top 1 6 x => ok
checkpoint a before => ok
changes a => end 2
conflicts a => end 1
merge a => error 9 Unsettled 1
merge a 1:1=mine 1:1=theirs => error 11 SettledTwice 1:1
merge a 1:1=mine 1:2=mine => error 10 NotInConflict 1:2
merge a 1:1=theirs => ok 6
list a => end 7
list a@before 1 => end 2
list a 1 2 6 => end 5
list a 1 6 2 => end 0
list a@nope 1 => error 3 NoSuchCheckpoint
list a 1 2 => error 22 BadLine word 1 takes AT [TABLE [FIRST LAST]]
next a 1 5 2 => end 2
next a 1 7 4294967295 => end 1
next a@ 0 0 0 => end 0
diff a@before a => end 6
diff a@before a 1 => end 6
diff a a@before 1 2 5 => end 4
diff a@ a 1 9 2 => end 0
changes a => end 1
conflicts a => end 0
grow 300 => ok
commit => ok
put top 1 7 z => ok
grow 900 => ok
rollback => ok
get top 1 7 => none
grow 300 => error 21 BadSize
grow 1000 => ok
post a => ok
list top => end 7
back a before => ok
list a => end 2
checks a => end 1
alts => end 2
reclaim => ok
free => free 961
END

# The list of commands as lines, and each listing.
cat >"$room/session.x" <<'END'
put top 1 1 a => ok
new x top => ok
put x 1 1 b => ok
checkpoint x c => ok
commit => ok
put top 1 2 d => ok
merge x => ok 1
post x => ok
uncheck x c => ok
grow 80 => ok
commit => ok
put top 1 3 e => ok
remove top 1 1 => ok
commit => ok
list x => end 2
list x 1 1 1 => end 1
next x 1 2 1 => end 1
diff x top 1 => end 2
changes x => end 0
conflicts x => end 0
alts => end 2
checks x => end 0
free => free 41
END

fail() {
    echo "refuse_allocations: $*" >&2
    exit 1
}

# Starts the program on a copy of the empty store, where as many blocks may wait as the session says, and refuses it the
# allocation of this number: none, where it is 0.
start() {
    cp "$room/empty" "$room/store"
    rm -f "$room/refused"
    timeout 60 env LD_PRELOAD="$room/refuse.so" REFUSE="$1" REFUSED="$room/refused" \
        "$program" run ${buffer:+--buffer "$buffer"} "$room/store" <"$room/lines" >"$room/answers" 2>"$room/faults" &
    pid=$!
    exec 3>"$room/lines" 4<"$room/answers"
}

# Ends the input, and keeps the exit status of the program.
finish() {
    exec 3>&-
    status=0
    wait "$pid" || status=$?
    exec 4<&-
}

# The answer to a line. A list goes on up to the line that ends it.
ask() {
    printf '%s\n' "$1" 2>/dev/null >&3 || return 1
    while IFS= read -r said <&4; do
        printf '%s\n' "$said"
        case $said in
            alternative\ * | change\ * | checkpoint\ * | conflict\ * | record\ *) ;;
            *) return 0 ;;
        esac
    done
    return 1
}

# All that a store in a file shows.
shown() {
    printf '%s\n' alts 'list top' "list $alt" "changes $alt" "conflicts $alt" "checks $alt" free | "$program" run "$1"
}

# All that can be seen of the store.
state() {
    for query in alts 'list top' "list $alt" "changes $alt" "conflicts $alt" "checks $alt" free; do
        ask "$query" || return 1
    done
}

# Runs the session without refusal, and keeps each answer and the state after it.
run_usual() {
    start 0
    state >"$room/state.0" || fail 'the program ended before the first line'
    count=0
    while read -r pair; do
        count=$((count + 1))
        ask "${pair%% => *}" >"$room/answer.$count" || fail "no answer to $pair"
        [ "$(tail -n 1 "$room/answer.$count")" = "${pair##* => }" ] ||
            fail "$pair, but it is $(tail -n 1 "$room/answer.$count")"
        state >"$room/state.$count" || fail "the program ended after $pair"
    done <"$room/session.$alt"
    finish
    [ "$status" = 0 ] || fail "the status is $status without a refusal"
    cp "$room/store" "$room/usual"
    shown "$room/usual" >"$room/usual_shown"
}

# Runs the session with one allocation refused, and keeps in `answered` how many lines got their usual answer.
# The lines that are answered that memory is wanting are gathered.
run_refused() {
    start "$1"
    answered=0
    while read -r pair; do
        line=${pair%% => *}
        length=$(stat -c %s "$room/store")
        ask "$line" >"$room/answer" || break
        if [ "$(cat "$room/answer")" = 'error 16 Memory' ]; then
            echo "$line" >>"$room/wanting"
            state >"$room/state" || fail "allocation $1: the program ended after $line"
            cmp -s "$room/state" "$room/state.$answered" && [ "$(stat -c %s "$room/store")" = "$length" ] ||
                fail "allocation $1: $line was refused and changed the store"
            ask "$line" >"$room/answer" || fail "allocation $1: no answer to $line, said again"
        fi
        cmp -s "$room/answer" "$room/answer.$((answered + 1))" ||
            fail "allocation $1: $line is answered $(cat "$room/answer")"
        answered=$((answered + 1))
    done <"$room/session.$alt"
    finish
}

# Tests how a run with this allocation refused has ended: as usual, or before the first line with the file as
# it was, which opens again.
check_end() {
    case "$answered: $status $(cat "$room/faults")" in
        "$count: 0 ")
            cmp -s -n $((34 * 4096)) "$room/store" "$room/usual" &&
                shown "$room/store" | cmp -s - "$room/usual_shown" ||
                fail "allocation $1: the file shows something else"
            ;;
        '0: 1 altctl: 16 Memory' | '0: 3 altctl: stopped')
            cmp -s "$room/store" "$room/empty" || fail "allocation $1: the file was changed without a line"
            [ "$(echo free | "$program" run "$room/store")" = "$free" ] ||
                fail "allocation $1: the file does not open again"
            ;;
        *) fail "allocation $1: status $status after $answered answers: $(cat "$room/faults" "$room/answer")" ;;
    esac
}

# Runs a session over a new store, with each of its allocations refused: of an alternative, in a store of that many
# blocks, of which as many may wait as the third word says, or as usual if it is empty.
run_session() {
    alt=$1
    buffer=$3
    rm -f "$room/empty"
    "$program" create "$room/empty" "$2" >/dev/null
    free="free $(($2 - 34))"
    run_usual
    number=0
    while
        number=$((number + 1))
        run_refused "$number"
        check_end "$number"
        [ -e "$room/refused" ]
    do :; done
    refusals=$((refusals + number - 1))
}

# Tests the file that a copy was to make: it shows what the store shows, or is not there if memory was wanting.
check_copy() {
    if [ "$status" = 0 ]; then
        shown "$room/copied" | cmp -s - "$room/usual_shown" || fail "copy, allocation $1: it shows something else"
    elif [ -e "$room/copied" ]; then
        fail "copy, allocation $1: something has its name"
    fi
    [ ! -e "$room/copied.part" ] || fail "copy, allocation $1: it left a file"
}

# Has a job done that only reads the store that a session left, and refuses the allocation of this number: none, where
# it is 0. The first word names the job. A copy is made anew.
read_store() {
    rm -f "$room/refused" "$room/copied"
    [ "$1" != copy ] || set -- "$1" "$2" "$room/copied"
    status=0
    timeout 60 env LD_PRELOAD="$room/refuse.so" REFUSE="$2" REFUSED="$room/refused" \
        "$program" "$1" "$room/store" ${3:+"$3"} >"$room/shown" 2>"$room/said" </dev/null || status=$?
    cmp -s "$room/store" "$room/usual" || fail "$1, allocation $2: the file was changed"
    [ "$1" != copy ] || check_copy "$2"
}

# Has a job done that only reads the store that a session left, with each allocation refused. What it prints is in
# `due`. Each end is met at least once.
run_reads() {
    cp "$room/usual" "$room/store"
    read_store "$1" 0
    [ "$status" = 0 ] && cmp -s "$room/shown" "$room/due" || fail "$1: it tells $(cat "$room/shown" "$room/said")"
    : >"$room/ends"
    number=0
    while
        number=$((number + 1))
        read_store "$1" "$number"
        echo "$status $(cat "$room/said")" >>"$room/ends"
        case $(tail -n 1 "$room/ends") in
            '0 ') cmp -s "$room/shown" "$room/due" || fail "$1, allocation $number: it tells $(cat "$room/shown")" ;;
            '1 altctl: 16 Memory' | '3 altctl: stopped')
                [ ! -s "$room/shown" ] || fail "$1, allocation $number: it tells $(cat "$room/shown")"
                ;;
            *) fail "$1, allocation $number: $(tail -n 1 "$room/ends")" ;;
        esac
        [ -e "$room/refused" ]
    do :; done
    for end in '0 ' '1 altctl: 16 Memory' '3 altctl: stopped'; do
        grep -qx "$end" "$room/ends" || fail "$1: it never ends with $end"
    done
    refusals=$((refusals + number - 1))
}

# Checks the store that a session left, with each allocation refused. It has one alternative below top, and so many
# checkpoints.
run_checks() {
    printf 'alternatives 2\ncheckpoints %s\n' "$1" >"$room/due"
    cp "$room/usual" "$room/store"
    echo free | "$program" run "$room/store" >>"$room/due"
    run_reads check
}

# Copies the store that a session left, with each allocation refused. It has so many blocks, all but the free ones in
# use.
run_copies() {
    cp "$room/usual" "$room/store"
    spare=$(echo free | "$program" run "$room/store")
    echo "copied $1, $(($1 - ${spare#free })) used" >"$room/due"
    run_reads copy
}

# Draws the tree of the store that a session left, with each allocation refused. These lines are due below top.
run_trees() {
    {
        echo 'changed unmerged conflicts post'
        echo '      -        -         -    -  top'
        cat
    } >"$room/due"
    run_reads tree
}

# Carries out lines that are words over a new store, and refuses the allocation of this number: none, where it is 0.
do_lines() {
    cp "$room/empty" "$room/store"
    rm -f "$room/refused"
    status=0
    timeout 60 env LD_PRELOAD="$room/refuse.so" REFUSE="$1" REFUSED="$room/refused" \
        "$program" do --strict "$room/store" 'new a top' 'put top 1 1 x' 'put a 1 9 y' 'merge a' 'list a' commit \
        >"$room/shown" 2>"$room/said" </dev/null || status=$?
}

# Whether the lines before the last one that was answered were answered as usual.
began_as_usual() {
    sed '$d' "$room/shown" >"$room/begun"
    head -n "$(wc -l <"$room/begun")" "$room/usual_answers" | cmp -s - "$room/begun"
}

# Carries out lines that are words, with each allocation refused: all of them, or none. Where a line was refused, the
# header, the selector and the slots, which are 34 blocks, are as they were: the free blocks may have any bytes. Each
# end is met at least once.
do_all_lines() {
    printf '%s\n' ok ok ok 'ok 1' 'record 1 1 x' 'record 1 9 y' 'end 2' ok >"$room/usual_answers"
    do_lines 0
    [ "$status" = 0 ] && cmp -s "$room/shown" "$room/usual_answers" ||
        fail "do: it is $(cat "$room/shown" "$room/said")"
    cp "$room/store" "$room/usual"
    : >"$room/ends"
    number=0
    while
        number=$((number + 1))
        do_lines "$number"
        echo "$status $(cat "$room/said")" >>"$room/ends"
        left=$room/empty
        bytes=$((64 * 4096))
        case $(tail -n 1 "$room/ends") in
            '0 ') left=$room/usual && cmp -s "$room/shown" "$room/usual_answers" ;;
            '4 ') bytes=$((34 * 4096)) && [ "$(tail -n 1 "$room/shown")" = 'error 16 Memory' ] && began_as_usual ;;
            '1 altctl: 16 Memory' | '3 altctl: stopped') [ ! -s "$room/shown" ] ;;
            *) false ;;
        esac || fail "do, allocation $number: $(tail -n 1 "$room/ends") $(cat "$room/shown")"
        cmp -s -n "$bytes" "$room/store" "$left" || fail "do, allocation $number: the file is another one"
        [ -e "$room/refused" ]
    do :; done
    for end in '0 ' '1 altctl: 16 Memory' '3 altctl: stopped' '4 '; do
        grep -qx "$end" "$room/ends" || fail "do: it never ends with $end"
    done
    refusals=$((refusals + number - 1))
}

# Has a session lock the store, until the descriptor 5 is closed.
hold_lock() {
    mkfifo "$room/typed"
    "$program" run "$room/store" <"$room/typed" >"$room/held" 2>&1 &
    holder=$!
    exec 5>"$room/typed"
    echo free >&5
    until [ -s "$room/held" ]; do sleep 0.1; done
}

# Has lines carried out beside a session that holds the lock, with each allocation refused: none of them writes. Each
# end is met at least once.
try_locked() {
    cp "$room/empty" "$room/store"
    hold_lock
    : >"$room/ends"
    number=0
    while
        number=$((number + 1))
        rm -f "$room/refused"
        status=0
        timeout 60 env LD_PRELOAD="$room/refuse.so" REFUSE="$number" REFUSED="$room/refused" \
            "$program" do "$room/store" 'put top 1 1 x' commit >"$room/shown" 2>"$room/said" </dev/null 5>&- ||
            status=$?
        echo "$status $(cat "$room/said")" >>"$room/ends"
        case $(tail -n 1 "$room/ends") in
            "1 altctl: $room/store is in use" | '3 altctl: stopped') [ ! -s "$room/shown" ] ;;
            *) false ;;
        esac || fail "a locked store, allocation $number: $(tail -n 1 "$room/ends") $(cat "$room/shown")"
        cmp -s "$room/store" "$room/empty" || fail "a locked store, allocation $number: the file was changed"
        [ -e "$room/refused" ]
    do :; done
    for end in "1 altctl: $room/store is in use" '3 altctl: stopped'; do
        grep -qx "$end" "$room/ends" || fail "a locked store: it never ends with $end"
    done
    exec 5>&-
    wait "$holder" || fail "a locked store: its holder ends with $?"
    refusals=$((refusals + number - 1))
}

# Runs the list of commands in memory, with the allocation of this number refused. Where one was, just one thing was
# refused.
run_commands() {
    rm -f "$room/refused"
    status=0
    timeout 60 env LD_PRELOAD="$room/refuse.so" REFUSE="$1" REFUSED="$room/refused" \
        "$commands/out/refused" >"$room/shown" 2>"$room/said" || status=$?
    [ "$status" = 0 ] || fail "commands, allocation $1: status $status: $(cat "$room/said")"
    cmp -s "$room/shown" "$commands/stdout" || fail "commands, allocation $1: another output"
    if [ -e "$room/refused" ]; then
        sed -n 's/^refused: \(.*\), 1$/\1/p' "$room/said" >"$room/what"
        [ "$(wc -l <"$room/said") $(wc -l <"$room/what")" = '1 1' ] ||
            fail "commands, allocation $1: it says '$(cat "$room/said")'"
        cat "$room/what" >>"$room/refused_commands"
    elif [ -s "$room/said" ]; then
        fail "commands: nothing was refused, and it says '$(cat "$room/said")'"
    fi
}

# The list of commands in memory, with each allocation refused. Each of these was refused once at least.
run_all_commands() {
    : >"$room/refused_commands"
    number=0
    while
        number=$((number + 1))
        run_commands "$number"
        [ -e "$room/refused" ]
    do :; done
    refusals=$((refusals + number - 1))
    for what in open merge 'merge in a list' 'merge before closing' grow 'grow in a list' run line alternatives list \
        changes checkpoints; do
        grep -qx "$what" "$room/refused_commands" || fail "commands: $what was never refused"
    done
}

"$top/altctl" --help >/dev/null
(cd "$commands" && rt run) >"$room/log" 2>&1 </dev/null || fail "$(cat "$room/log")"
${CC:-cc} -O1 -shared -fPIC -o "$room/refuse.so" "$top/tools/faults/refuse_allocations.c"
mkfifo "$room/lines" "$room/answers"
: >"$room/wanting"
refusals=0
run_all_commands
run_session a 256 ''
run_checks 1
run_copies 300
run_trees <<'END'
      1        0         0  yes  `- a
                                    * before
END
for waiting in 1 2 64; do
    run_session x 64 "$waiting"
done
run_checks 0
run_copies 80
echo '      0        2         0   no  `- x' | run_trees
do_all_lines
try_locked
for line in 'merge .*' 'grow 300' 'grow 1000'; do
    grep -qx "$line" "$room/wanting" || fail "no $line was refused"
done
echo 'How often each was refused, by calls:'
sort "$room/refused_commands" | uniq -c
echo 'and each line:'
sort "$room/wanting" | uniq -c
echo "refuse_allocations: $refusals allocations were refused, each in a run of its own, and nothing was lost"
