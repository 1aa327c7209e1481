#!/bin/sh
# Runs the program over real files, and compares each output and status with what stands here: `tools/gate/session.sh
# [ALTCTL]`. Where one differs, it says what was expected and what came, and ends with status 1.
# It stands beside the gate: `rt ci` has such lines answered over memory, and this script over files.
set -eu

tools=$(cd "$(dirname "$0")/.." && pwd)
altctl=${1:-$tools/../altctl}
case $altctl in
/*) ;;
*/*) altctl=$PWD/$altctl ;;
esac

work=$(mktemp -d)
device=
trap '[ -z "$device" ] || losetup -d "$device"; rm -rf "$work"' EXIT
trap 'exit 1' HUP INT TERM
cd "$work"
differences=0

# Shows where the file that came differs from the one that was expected.
compare() {
    if ! cmp -s "$2" "$3"; then
        echo "$1: expected (-) and came (+):"
        diff -a -u "$2" "$3" | sed '1,3d; s/^/    /' | head -n 40
        differences=$((differences + 1))
    fi
}

# That no file has this name.
absent() {
    if [ -e "$2" ]; then
        echo "$1: expected no file $2, and one came"
        differences=$((differences + 1))
        rm "$2"
    fi
}

# Starts the program with the words after the status, on the bytes in `lines`. Compares its status, its
# output with `output`, and its standard error with `faults`, where that is there.
program() {
    name=$1
    echo "$2" >status
    shift 2
    came=0
    "$altctl" "$@" <lines >output.came 2>faults.came || came=$?
    echo "$came" >status.came
    compare "$name: status" status status.came
    compare "$name: output" output output.came
    [ ! -e faults ] || compare "$name: standard error" faults faults.came
    rm -f faults
}

# Runs a store on the lines that stand after `> `. The others are the answers that are expected.
session() {
    cat >text
    sed -n 's/^> \{0,1\}//p' text >lines
    sed '/^>/d' text >output
    : >faults
    program "$1" 0 run "$2"
}

# That a file is for its owner alone to read and write.
is_private() {
    echo 600 >due
    stat -c %a "$1" >came
    compare "the mode of $1" due came
}

# Makes a store.
create() {
    : >lines
    echo "created $2" >output
    : >faults
    program "create $1 $2" 0 create "$1" "$2"
    is_private "$1"
}

# --- each line, and merges -----------------------------------------------------------------------

create each 64
session 'each line' each <<'END'
> new a top
ok
> put a 7 1 duct
ok
> get a 7 1
value duct
> get a 7 2
none
> list a
record 7 1 duct
end 1
> free
free 29
> checkpoint a before
ok
> checks a
checkpoint before
end 1
> remove a 7 1
ok
> list a
end 0
> back a before
ok
> get a 7 1
value duct
> uncheck a before
ok
> checks a
end 0
> alts
alternative top ~
alternative a top
end 2
> drop a
ok
> commit
ok
> reclaim
ok
> free
free 30
> grow 128
ok
> free
free 94
> any other
error 22 BadLine word 1: there is no such line
END

create minutes 1024
session 'two minutes' minutes <<'END'
> put top 7 1 duct
ok
> commit
ok
> get top 7 1
value duct
> put top 7 2 pipe
ok
END
session 'two minutes, opened again' minutes <<'END'
> get top 7 1
value duct
> list top
record 7 1 duct
end 1
END

create merges 64
session 'merges' merges <<'END'
> new a top
ok
> put a 7 1 duct
ok
> changes a
change 7 1 ~ duct
end 1
> conflicts a
end 0
> put a 7 2 cable
ok
> put top 7 1 pipe
ok
> put top 7 2 hose
ok
> conflicts a
conflict 7 1 ~ pipe duct
conflict 7 2 ~ hose cable
end 2
> post a
error 8 NotMerged
> merge a 7:1=mine
error 9 Unsettled 1
> merge a 7:1=mine 7:2=theirs 7:1=mine
error 11 SettledTwice 7:1
> merge a 7:1=mine 7:3=mine
error 10 NotInConflict 7:3
> merge a 7:1=mine 7:2=ours
error 22 BadLine word 4: SETTLEMENT is TABLE:NUMBER=mine|theirs
> merge a 7:1=mine 7:2=theirs
ok 1
> changes a
change 7 1 pipe duct
end 1
> post a
ok
> list top
record 7 1 duct
record 7 2 hose
end 2
> changes a
end 0
END

# --- sessions on one store -----------------------------------------------------------------------

create store 64
session 'lines and values' store <<'END'
> put top 1 1 -
ok
> get top 1 1
value -
> put top 1 2 %2d
ok
> get top 1 2
value %2D
> put top 1 3 %zz
error 22 BadLine word 5: VALUE is at most 4,000 bytes, % as %25
> put top 01 007 a
ok
> get top 1 7
value a
> # note
>
> merge top
error 6 IsTop
> PUT top 1 1 a
error 22 BadLine word 1: there is no such line
> list top
record 1 1 -
record 1 2 %2D
record 1 7 a
end 3
END

session 'a conflict' store <<'END'
> new a top
ok
> put top 7 1 duct
ok
> put a 7 1 cable%20A
ok
> merge a
error 9 Unsettled 1
> conflicts a
conflict 7 1 ~ duct cable%20A
end 1
> merge a 7:1=mine
ok 0
> post a
ok
> get top 7 1
value cable%20A
> get top 7 x
error 22 BadLine word 4: NUMBER is 0 to 18446744073709551615
> alts
alternative top ~
alternative a top
end 2
> commit
ok
END

session 'a conflict, opened again' store <<'END'
> get top 7 1
value cable%20A
END

# --- a store that grows ----------------------------------------------------------------------------

# Compares the number of bytes of a file.
has_bytes() {
    echo "$2" >due
    stat -c %s "$1" >came
    compare "the bytes of $1" due came
}

create growing 64
session 'numbers of blocks' growing <<'END'
> grow 64
error 21 BadSize
> grow 63
error 21 BadSize
> grow 0
error 21 BadSize
> grow 67108865
error 21 BadSize
> grow 4294967295
error 21 BadSize
> grow 00000000004294967295
error 21 BadSize
> grow 4294967296
error 22 BadLine word 2: BLOCKS is 0 to 4294967295
> grow 18446744073709551616
error 22 BadLine word 2: BLOCKS is 0 to 4294967295
> grow 000000000000000000128
error 22 BadLine word 2: BLOCKS is 0 to 4294967295
> grow
error 22 BadLine word 1 takes BLOCKS
> grow 128 128
error 22 BadLine word 1 takes BLOCKS
> grow -1
error 22 BadLine word 2: BLOCKS is 0 to 4294967295
> grow +128
error 22 BadLine word 2: BLOCKS is 0 to 4294967295
> grow 0x80
error 22 BadLine word 2: BLOCKS is 0 to 4294967295
> GROW 128
error 22 BadLine word 1: there is no such line
> free
free 30
END
has_bytes growing 262144

session 'a growth' growing <<'END'
> grow 128
ok
> free
free 94
> grow 128
error 21 BadSize
> put top 1 1 x
ok
> free
free 93
END
has_bytes growing 524288
session 'a growth that no commit followed' growing <<'END'
> free
free 30
> list top
end 0
> grow 100
ok
> free
free 66
> grow 128
ok
> put top 1 1 x
ok
> commit
ok
> grow 00000000000000000130
ok
END
has_bytes growing 532480
session 'a growth that was committed' growing <<'END'
> free
free 93
> grow 128
error 21 BadSize
> get top 1 1
value x
END
session 'a growth that is rolled back' growing <<'END'
> new a top
ok
> put a 1 2 y
ok
> grow 140
ok
> free
free 104
> rollback
ok
> free
free 92
> alts
alternative top ~
end 1
> grow 128
error 21 BadSize
> rollback all
error 22 BadLine word 1 takes no other word
> list top
record 1 1 x
end 1
> put top 1 1 z
ok
> rollback
ok
> commit
ok
> reclaim
ok
> free
free 93
END
has_bytes growing 573440

# The smallest store is full with 14 records of one leaf in as many checkpoints, and takes more once it has grown.
create full 64
for n in 1 2 3 4 5 6 7 8 9 10 11 12 13 14; do
    printf 'put top 1 %d x\ncheckpoint top c%d\n' $n $n
done >lines
for n in 1 2 3 4 5 6 7 8 9 10 11 12 13 14; do
    printf 'ok\nok\n'
done >output
printf 'put top 1 15 x\nfree\ngrow 65\nput top 1 15 x\nfree\ncommit\n' >>lines
printf 'error 13 Full\nfree 16\nok\nok\nfree 16\nok\n' >>output
: >faults
program 'a full store that grows' 0 run full
has_bytes full 266240

# Room that is in the file already needs no more of it.
create wider 64
head -c 262144 /dev/zero >>wider
session 'a file longer than its store' wider <<'END'
> free
free 30
> grow 96
ok
> free
free 62
> commit
ok
END
has_bytes wider 524288

# --- long values ---------------------------------------------------------------------------------

create long 96
long=$(printf '%0300d' 7)
most=$(printf '%04000d' 8)
session 'long values' long <<END
> put top 7 1 $long
ok
> get top 7 1
value $long
> free
free 61
> list top
record 7 1 $long
end 1
> new a top
ok
> put a 7 1 $most
ok
> put top 7 1 duct
ok
> put top 7 2 $long
ok
> changes a
change 7 1 $long $most
end 1
> conflicts a
conflict 7 1 $long duct $most
end 1
> merge a 7:1=mine
ok 1
> list a
record 7 1 $most
record 7 2 $long
end 2
> post a
ok
> commit
ok
> reclaim
ok
> free
free 59
> put top 7 3 x$most
error 22 BadLine word 5: VALUE is at most 4,000 bytes, % as %25
END
checked_free() {
    printf 'alternatives 2\ncheckpoints 0\nfree %s\n' "$2" >output
    : >lines
    : >faults
    program "$1" 0 check long
}
checked_free 'check of long values' 59
session 'long values that go' long <<END
> get top 7 1
value $most
> put top 7 1 duct
ok
> remove top 7 2
ok
> changes a
end 0
> list top
record 7 1 duct
end 1
> post a
error 8 NotMerged
> merge a
ok 2
> list a
record 7 1 duct
end 1
> commit
ok
END
checked_free 'check of a store whose long values went' 61

# The longest line of an answer: three values of 4,000 bytes of which none stands for itself.
create longest 64
zeros=$(printf '%%00%.0s' $(seq 3999))
{
    echo "put top 65535 18446744073709551615 $zeros%00"
    echo new a top
    echo "put top 65535 18446744073709551615 $zeros%01"
    echo "put a 65535 18446744073709551615 $zeros%02"
    echo conflicts a
} >lines
{
    printf 'ok\nok\nok\nok\n'
    echo "conflict 65535 18446744073709551615 $zeros%00 $zeros%01 $zeros%02"
    echo end 1
} >output
: >faults
program 'the longest line' 0 run longest

# --- lines as words, and refused lines -----------------------------------------------------------

create batch 64
echo commit >lines
printf 'ok\nvalue duct\n' >output
: >faults
program 'words as lines' 0 do batch 'put top 7 1 duct' 'get top 7 1'

: >lines
printf 'ok\nerror 5 NoSuchRecord\n' >output
: >faults
program 'a refused word that ends it' 4 do --strict batch 'put top 7 1 duct' 'remove top 7 9' commit
session 'nothing of the batch' batch <<'END'
> list top
end 0
END

: >lines
printf 'ok\nerror 5 NoSuchRecord\nok\n' >output
: >faults
program 'a refused word' 4 do batch 'put top 7 1 duct' 'remove top 7 9' commit
session 'all of the batch but the refused word' batch <<'END'
> list top
record 7 1 duct
end 1
END

printf 'put top 7 2 pipe\nnonsense\ncommit\n' >lines
printf 'ok\nerror 22 BadLine word 1: there is no such line\n' >output
: >faults
program 'a refused line that ends a run' 4 run --strict batch
session 'nothing of its lines' batch <<'END'
> list top
record 7 1 duct
end 1
END

: >lines
printf 'ok\nok\n' >output
: >faults
program 'a batch without a refused word' 0 do --cache 0 --strict batch -- 'put top 7 2 pipe' commit
program 'a batch whose blocks wait' 0 do --buffer 1 --strict batch -- 'put top 7 2 pipe' commit
: >output
program 'no word for a line' 2 do batch

# --- words and files -----------------------------------------------------------------------------

create f 64
cp f f.before
: >lines
: >output
echo 'altctl: cannot create f' >faults
program 'create over a file' 1 create f 64
compare 'create over a file: the file' f.before f

for size in 63 67108865 many; do
    program "create with $size blocks" 2 create g "$size"
    absent "create with $size blocks" g
done
program 'no words' 2

{
    echo 'altctl 0.1.0'
    echo 'file format 3'
    sed -n 's/^Proved with: `\(.*\)`\.$/proved with \1/p' "$tools/../README.md"
} >output
: >faults
program 'the version' 0 --version
: >faults
program 'the version, in short' 0 -V
: >output

echo 'altctl: cannot open g' >faults
program 'run without a file' 1 run g

head -c 262144 /dev/zero >h
echo 'altctl: 19 NotAStore' >faults
program 'run on zero blocks' 1 run h

# Bytes behind the last whole block are no block, and stay as they are.
create longer 64
head -c 100 /dev/zero | tr '\0' x >tail
cat tail >>longer
cp longer longer.before
session '100 bytes behind 64 blocks' longer <<'END'
> free
free 30
END
compare '100 bytes behind 64 blocks: the file' longer.before longer
session '100 bytes behind 64 blocks, a commit' longer <<'END'
> put top 7 1 duct
ok
> commit
ok
END
tail -c +262145 longer >tail.came
compare '100 bytes behind 64 blocks: the bytes' tail tail.came
session '100 bytes behind 64 blocks, opened again' longer <<'END'
> get top 7 1
value duct
> free
free 29
END
cp longer tailed
session '100 bytes behind 64 blocks, which a growth takes' tailed <<'END'
> grow 65
ok
> free
free 30
END
head -c 4096 /dev/zero >tail
tail -c +262145 tailed >tail.came
compare '100 bytes behind 64 blocks, which a growth takes: the bytes' tail tail.came

# A store of an earlier format.
gzip -dc "$tools/old-stores/format-1.alt.gz" >earlier
cp earlier earlier.before
: >lines
: >output
for words in 'run earlier' 'run --read-only earlier' 'do earlier free' 'check earlier' 'tree earlier' \
    'copy earlier made'; do
    echo 'altctl: 19 NotAStore' >faults
    echo 'altctl: the file is of an earlier format: tools/upgrade.py OLD NEW carries it over' >>faults
    program "$words, of an earlier format" 1 $words
    compare "$words, of an earlier format: the file" earlier.before earlier
done
absent 'a copy of an earlier format' made

# A store without checksums.
gzip -dc "$tools/old-stores/format-3.alt.gz" >unsummed
cp unsummed unsummed.before
for words in 'run unsummed' 'run --read-only unsummed' 'do unsummed free' 'check unsummed' 'tree unsummed' \
    'copy unsummed made'; do
    echo 'altctl: 18 Damaged 2' >faults
    echo 'altctl: the file has no checksums: tools/upgrade.py OLD NEW carries it over' >>faults
    program "$words, without checksums" 1 $words
    compare "$words, without checksums: the file" unsummed.before unsummed
done
absent 'a copy of a store without checksums' made

# A store that was cut.
for length in 0 1 86016 258048 262143; do
    head -c "$length" longer >short
    cp short short.before
    : >lines
    : >output
    echo 'altctl: 19 NotAStore' >faults
    program "run on the first $length bytes of a store" 1 run short
    compare "run on the first $length bytes of a store: the file" short.before short
done

# --- bytes ---------------------------------------------------------------------------------------

# The same bytes many times.
repeat() {
    head -c "$1" /dev/zero | tr '\0' "$2"
}

printf 'put top 1 1 a\r\nget top 1 1\r\n\r\n  get   top 1 1  \r\nget top 1 1\r \n' >lines
printf 'ok\nvalue a\nvalue a\nerror 22 BadLine word 4: NUMBER is 0 to 18446744073709551615\n' >output
: >faults
program 'CR before LF' 0 run f

printf 'put top 1 1 a\nget top 1 1' >lines
printf 'ok\nvalue a\n' >output
: >faults
program 'no LF at the end' 0 run f

{
    repeat 1048577 ' '
    printf '\nfree\n'
    repeat 1048572 ' '
    printf 'free\nfree\n'
    repeat 1048577 '#'
} >lines
printf 'error 23 LongLine\nfree 30\nfree 30\nfree 30\nerror 23 LongLine\n' >output
: >faults
program 'lines of 1,048,577 bytes, and one of 1,048,576' 0 run f

echo free >lines
# A job whose output is full stops with status 3: the words.
full_output() {
    echo 3 >status
    echo 'altctl: stopped' >faults
    came=0
    "$altctl" "$@" <lines >/dev/full 2>faults.came || came=$?
    echo "$came" >status.came
    compare "$1, a full output: status" status status.came
    compare "$1, a full output: standard error" faults faults.came
}

full_output run f
full_output do f free

# --- a check of a store, and its tree ---------------------------------------------------------------

# Has a job that only reads a store done, which the first word names. The lines that are expected stand here, and the
# file stays as it was.
only_read() {
    cp "$3" before
    : >lines
    cat >output
    : >faults
    program "$2" 0 "$1" "$3"
    compare "$2: the file" before "$3"
}

checked() {
    only_read check "$@"
}

drawn() {
    only_read tree "$@"
}

create counted 64
checked 'check of a store that has grown' growing <<'END'
alternatives 1
checkpoints 0
free 93
END
checked 'check of a new store' counted <<'END'
alternatives 1
checkpoints 0
free 30
END
session 'a store to check' counted <<'END'
> put top 7 1 duct
ok
> new a top
ok
> checkpoint a before
ok
> commit
ok
> put top 7 2 pipe
ok
END
checked 'check' counted <<'END'
alternatives 2
checkpoints 1
free 29
END
drawn 'tree' counted <<'END'
changed unmerged conflicts post
      -        -         -    -  top
      0        0         0  yes  `- a
                                    * before
END

# Copies a store, which stays as it is, to a file: the number of its blocks, of those in use, and further words of the
# copy.
copied() {
    cp "$1" before
    : >lines
    echo "copied $3, $4 used" >output
    : >faults
    name="copy of $1 to $2"
    from=$1 to=$2 size=$3
    shift 4
    program "$name" 0 copy "$from" "$to" "$@"
    compare "$name: the file" before "$from"
    has_bytes "$to" $((4096 * size))
    is_private "$to"
    absent "$name: its other name" "$to.part"
}

# Root may write a file that says otherwise, unless this is taken from it.
able=$altctl
if [ "$(id -u)" = 0 ]; then
    printf '#!/bin/sh\nexec setpriv --bounding-set=-dac_override "%s" "$@"\n' "$able" >unable
    chmod +x unable
    if setpriv --bounding-set=-dac_override true 2>faults.came; then
        altctl=$work/unable
    fi
fi
mkdir sealed
cp counted sealed/f
chmod 0444 sealed/f
chmod 0555 sealed
if [ "$(id -u)" != 0 ] || [ "$altctl" != "$able" ]; then
    : >lines
    : >output
    echo 'altctl: cannot open sealed/f' >faults
    program 'run on a file that may not be written' 1 run sealed/f
fi
checked 'check of a file that may not be written' sealed/f <<'END'
alternatives 2
checkpoints 1
free 29
END
drawn 'tree of a file that may not be written' sealed/f <<'END'
changed unmerged conflicts post
      -        -         -    -  top
      0        0         0  yes  `- a
                                    * before
END
copied sealed/f of_sealed 64 35
altctl=$able
chmod 0755 sealed

for file in absent h; do
    : >output
    echo 'altctl: 19 NotAStore' >faults
    [ -e $file ] || echo "altctl: cannot open $file" >faults
    program "check of $file" 1 check $file
    program "tree of $file" 1 tree $file
    [ -e $file ] || echo "altctl: cannot open $file" >faults
    [ ! -e $file ] || echo 'altctl: 19 NotAStore' >faults
    program "copy of $file" 1 copy $file made
    absent "copy of $file" made
done

# What is neither a plain file nor a block device: nobody waits for a pipe to be written to.
mkfifo pipe
mkdir folder
ln -s pipe link
printf '#!/bin/sh\nexec timeout 60 "%s" "$@"\n' "$able" >timely
chmod +x timely
altctl=./timely
for file in pipe folder link /dev/null; do
    : >lines
    : >output
    for word in check tree run; do
        echo "altctl: cannot open $file" >faults
        program "$word of $file, which has no blocks" 1 $word $file
    done
    echo "altctl: cannot open $file" >faults
    program "copy of $file, which has no blocks" 1 copy $file made
    absent "copy of $file, which has no blocks" made
    echo "altctl: cannot create $file" >faults
    program "create over $file, which has no blocks" 1 create $file 64
    echo "altctl: cannot create $file" >faults
    program "copy to $file, which has no blocks" 1 copy counted $file
done
altctl=$able

# A file whose file system knows no sync: for a check that counts as synced, and for a run it doesn't.
if [ -w /proc/self/comm ]; then
    echo 'altctl: 19 NotAStore' >faults
    program 'check of a file that knows no sync' 1 check /proc/self/comm
    echo 'altctl: 15 Device' >faults
    program 'run on a file that knows no sync' 1 run /proc/self/comm
fi

# A store on a block device, where this machine gives one: of 80 blocks, for a store of 64.
head -c 327680 /dev/zero >volume
cp counted small
if device=$(losetup --show -f volume 2>/dev/null); then
    : >lines
    : >output
    echo "altctl: cannot create $device" >faults
    program 'create over a device' 1 create "$device" 64
    echo 'altctl: 19 NotAStore' >faults
    program 'run on a device without a store' 1 run "$device"
    dd if=small of="$device" bs=4096 conv=fsync 2>/dev/null
    checked 'check of a device' "$device" <<'END'
alternatives 2
checkpoints 1
free 29
END
    session 'lines on a device' "$device" <<'END'
> put top 9 9 on_a_device
ok
> commit
ok
END
    session 'a growth on a device' "$device" <<'END'
> get top 9 9
value on_a_device
> grow 80
ok
> free
free 44
> commit
ok
END
    checked 'check of a device on which a store has grown' "$device" <<'END'
alternatives 2
checkpoints 1
free 44
END
    copied "$device" of_device 80 36
    printf 'grow 81\nfree\n' >lines
    echo 'error 15 Device' >output
    echo 'altctl: stopped' >faults
    program 'a growth over the end of a device' 3 run "$device"
    session 'the device opened again' "$device" <<'END'
> get top 9 9
value on_a_device
> grow 80
error 21 BadSize
END
    losetup -d "$device"
    device=
else
    device=
    echo 'session: this machine gives no block device, so that part was left out'
fi

ln -s counted other
checked 'check by a second name' other <<'END'
alternatives 2
checkpoints 1
free 29
END

full_output check counted
full_output tree counted
# The copy was made, and only that was not said.
full_output copy counted unsaid
checked 'check of a copy that was not said' unsaid <<'END'
alternatives 2
checkpoints 1
free 29
END
rm -f faults

# --- copies of a store ------------------------------------------------------------------------------

create new 64
copied new of_new 64 34
compare 'a copy of a new store' new of_new
copied counted of_counted 64 35
checked 'check of a copy' of_counted <<'END'
alternatives 2
checkpoints 1
free 29
END
copied counted larger 70 35 70
copied larger of_larger 64 35 64
compare 'a copy of a copy that was larger' of_counted of_larger
# A copy has nothing that no commit made durable: no blocks of a growth, and none after the store.
copied growing of_growing 128 35
session 'a copy of a store that has grown' of_growing <<'END'
> list top
record 1 1 x
end 1
> free
free 93
END
copied longer of_longer 64 35 --no-lock

# 40 of the longest values, in a leaf each, under a root; a base keeps the leaf and the root that top has replaced.
create stuffed 200
{
    for n in $(seq 40); do echo "put top 7 $n $most"; done
    printf 'new a top\nput top 7 1 duct\ncommit\n'
} >lines
sed 's/.*/ok/' lines >output
: >faults
program 'long values to copy' 0 run stuffed
checked 'check of long values to copy' stuffed <<'END'
alternatives 2
checkpoints 0
free 123
END
copied stuffed whole 77 77 77
session 'a copy without a free block' whole <<END
> free
free 0
> get top 7 1
value duct
> get a 7 40
value $most
> changes a
end 0
> tally a
tally 0 1 0 no
> put top 7 41 duct
error 13 Full
> grow 94
ok
> put top 7 41 duct
ok
END
: >lines
: >output
for size in 64 76; do
    echo 'altctl: 13 Full' >faults
    program "copy to $size blocks" 1 copy stuffed made "$size"
    absent "copy to $size blocks" made
done
for size in 63 67108865 many; do
    program "copy to $size blocks" 2 copy stuffed made "$size"
    absent "copy to $size blocks" made
done
program 'copy without a second file' 2 copy stuffed
for file in counted stuffed pointer; do
    [ -e "$file" ] || ln -s nowhere "$file"
    cp stuffed before
    echo "altctl: cannot create $file" >faults
    program "copy over $file" 1 copy stuffed "$file"
    compare "copy over $file: the file" before stuffed
    absent "copy over $file: its other name" "$file.part"
done
absent 'copy over a link' nowhere
# Nor is a file overwritten that has the other name.
cp counted taken.part
ln -s nowhere leading.part
for file in taken leading; do
    echo "altctl: cannot create $file.part" >faults
    program "copy to $file, whose other name is taken" 1 copy stuffed $file
    absent "copy to $file, whose other name is taken" $file
done
echo 'altctl: cannot create taken.part' >faults
program 'copy of the file with the other name' 1 copy taken.part taken
absent 'copy of the file with the other name' taken
compare 'the file with the other name' counted taken.part
absent 'copy over a link with the other name' nowhere
rm taken.part leading.part

# --- standard descriptors that are closed, or fail --------------------------------------------------

# Starts the program with the words after the second, and these redirections. Compares its status with `status`, what is
# then in `output.came` with `output`, and what is in `faults.came` with `faults`.
redirected() {
    name=$1
    redirections=$2
    shift 2
    came=0
    eval "\"\$altctl\" \"\$@\" $redirections" || came=$?
    echo "$came" >status.came
    compare "$name: status" status status.came
    compare "$name: output" output output.came
    compare "$name: standard error" faults faults.came
}

# Starts the program with the words after the third, on the bytes in `lines`, with the standard descriptors closed that
# the second names by their numbers. Compares its status with the third word, its output with `output`, and its standard
# error with `faults`, as far as they are open.
closed() {
    name="$1, closed $2"
    input='<lines' out='>output.came' error='2>faults.came'
    cp output output.came
    cp faults faults.came
    case $2 in *0*) input='<&-' ;; esac
    case $2 in *1*) out='>&-' ;; esac
    case $2 in *2*) error='2>&-' ;; esac
    echo "$3" >status
    shift 3
    redirected "$name" "$input $out $error" "$@"
}

# The status is 3 where one of these is closed, or else the third word. What is said then is in `faults`.
stopped_if() {
    case $2 in
    *[$1]*)
        : >output
        echo 'altctl: stopped' >faults
        echo 3
        ;;
    *)
        echo "$3"
        ;;
    esac
}

# A store with a value that spells commands.
create spelled 64
session 'a value that spells commands' spelled <<'END'
> put top 1 1 %0Aput%20top%202%202%20b%0Acommit%0A
ok
> commit
ok
END
create fresh 64
copied spelled spelled_copy 64 35
cp spelled answered
printf 'free\nput top 1 2 b\ncommit\n' >lines
"$altctl" run answered <lines >answers

for which in 0 1 2 01 02 12 012; do
    echo 'created 64' >output
    : >faults
    status=$(stopped_if 1 $which 0)
    closed create $which "$status" create made 64
    compare "create, closed $which: the file" fresh made
    rm -f made

    cp answers output
    : >faults
    status=$(stopped_if 01 $which 0)
    cp spelled store
    closed run $which "$status" run store
    case $which in
    2) compare "run, closed $which: the file" answered store ;;
    *) compare "run, closed $which: the file" spelled store ;;
    esac

    printf 'alternatives 1\ncheckpoints 0\nfree 29\n' >output
    : >faults
    status=$(stopped_if 1 $which 0)
    cp spelled store
    closed check $which "$status" check store
    compare "check, closed $which: the file" spelled store

    printf 'changed unmerged conflicts post\n      -        -         -    -  top\n' >output
    : >faults
    status=$(stopped_if 1 $which 0)
    closed tree $which "$status" tree store
    compare "tree, closed $which: the file" spelled store

    echo 'copied 64, 35 used' >output
    : >faults
    status=$(stopped_if 1 $which 0)
    closed copy $which "$status" copy store made
    compare "copy, closed $which: the file" spelled store
    compare "copy, closed $which: what was made" spelled_copy made
    absent "copy, closed $which: its other name" made.part
    rm -f made

    : >output
    echo 'altctl: 19 NotAStore' >faults
    status=$(stopped_if 2 $which 1)
    cp h zeros
    closed 'run on zero blocks' $which "$status" run zeros
    compare "run on zero blocks, closed $which: the file" h zeros

    : >output
    "$altctl" create made many 2>faults || :
    status=$(stopped_if 2 $which 2)
    closed 'wrong words' $which "$status" create made many
    absent "wrong words, closed $which" made

    "$altctl" --help >output
    : >faults
    status=$(stopped_if 1 $which 0)
    closed 'help' $which "$status" --help

    : >output
    echo 'altctl: the words are not UTF-8' >faults
    status=$(stopped_if 2 $which 2)
    closed 'no UTF-8' $which "$status" run "$(printf '\377')"
done

# Only one descriptor is left, and it is the one that is closed: the program opens no file.
echo 1 >status
cp spelled store
for words in 'create made 64' 'run store' 'check store' 'tree store' 'copy store made'; do
    came=0
    sh -c 'exec >&-; ulimit -n 3; exec "$0" "$@"' "$tools/../crates/altctl/out/altctl" $words <lines 2>faults.came ||
        came=$?
    echo "$came" >status.came
    echo 'altctl: cannot open store' >faults
    [ "$words" != 'create made 64' ] || echo 'altctl: cannot create made' >faults
    compare "no descriptor is left, $words: status" status status.came
    compare "no descriptor is left, $words: standard error" faults faults.came
done
absent 'no descriptor is left' made
compare 'no descriptor is left: the file' spelled store

# The standard output is open on the store's own file, or the input, where it may be written: that is not opened, and
# stays as it is.
echo 1 >status
echo 'altctl: cannot open store' >faults
: >output
led_to_store() {
    cp spelled store
    : >output.came
    redirected "$1 $2" "$2" $1
    compare "$1 $2: the file" spelled store
}
for words in 'run store' 'do store free' 'check store' 'tree store' 'copy store made'; do
    led_to_store "$words" '<lines 1<>store 2>faults.came'
    led_to_store "$words" '<lines >>store 2>faults.came'
done
for words in 'run store' 'do store free'; do
    led_to_store "$words" '<store >output.came 2>faults.came'
    led_to_store "$words" '<>store >output.came 2>faults.came'
done
# What is looked at alone may be the input.
cp spelled store
: >lines
: >faults
echo 0 >status
for words in 'check store' 'check /dev/stdin' 'tree store'; do
    "$altctl" ${words%% *} store >output
    redirected "$words <store" '<store >output.came 2>faults.came' $words
    compare "$words <store: the file" spelled store
done
echo 'copied 64, 35 used' >output
for words in 'copy store made' 'copy /dev/stdin made'; do
    redirected "$words <store" '<store >output.came 2>faults.came' $words
    compare "$words <store: the file" spelled store
    compare "$words <store: what was made" spelled_copy made
    rm -f made
done
# So may it of a session with --read-only: the bytes of the store are its lines then, and each is refused.
: >output
: >output.came
cp spelled store
redirected 'run --read-only store <store' '<store >answers.came 2>faults.came' run --read-only store
grep -a -v -x -E 'error (22 BadLine word [0-9]+: .*|22 BadLine word 1 takes .*|23 LongLine|24 ReadOnly)' answers.came >output.came || :
compare 'run --read-only store <store: other answers' output output.came
compare 'run --read-only store <store: the file' spelled store
# With --read-only the words for growing are taken, and nothing grows.
printf '%s\n' 'put top 9 1 a' 'grow 96' blocks >lines
printf '%s\n' 'error 24 ReadOnly' 'error 24 ReadOnly' 'blocks 64' >output
program 'run --read-only --grow' 0 run --read-only --grow --grow-to 128 store
compare 'run --read-only --grow: the file' spelled store
: >lines
: >faults
echo 1 >status
# By another name of it, and by a lock that takes the number of a closed input.
: >output
echo 1 >status
ln store linked
ln -s store pointed
for name in linked pointed; do
    echo "altctl: cannot open $name" >faults
    redirected "run $name <store" '<store >output.came 2>faults.came' run "$name"
    compare "run $name <store: the file" spelled store
done
came=0
flock -n store "$altctl" run store <&- >output.came 2>faults.came || came=$?
echo "$came" >status.came
compare 'a lock in the place of the input: status' status status.came
compare 'a lock in the place of the input: output' output output.came
compare 'a lock in the place of the input: the file' spelled store
rm -f linked pointed

# Starts the program with the words after the first, with a standard error that takes nothing. Its status is 3.
unheard() {
    name=$1
    shift
    echo 3 >status
    : >output
    came=0
    "$altctl" "$@" <lines >output.came 2>/dev/full || came=$?
    echo "$came" >status.came
    compare "$name, a full standard error: status" status status.came
    compare "$name, a full standard error: output" output output.came
}

unheard 'run without a file' run g
unheard 'copy without a file' copy g made
absent 'a full standard error' made
unheard 'wrong words' create g many
unheard 'no UTF-8' run "$(printf '\377')"
absent 'a full standard error' g

# The reader of the answers is gone: nothing is said of it.
echo free >lines
echo 3 >status
: >faults
{
    sleep 1
    came=0
    "$altctl" run spelled <lines 2>faults.came || came=$?
    echo "$came" >status.came
} | :
compare 'a reader that is gone: status' status status.came
compare 'a reader that is gone: standard error' faults faults.came

# --- the lock of the file --------------------------------------------------------------------------

create locked 64
mkfifo typed
"$altctl" run locked <typed >answers.came 2>&1 &
holder=$!
exec 9>typed
echo 'put top 1 1 a' >&9
# The first answer comes behind the lock.
until [ -s answers.came ]; do sleep 0.1; done
cp locked before
: >lines
: >output
for words in 'run locked' 'do locked free' 'check locked' 'tree locked' 'run --strict locked' 'copy locked made'; do
    echo 'altctl: locked is in use' >faults
    program "$words, beside a run" 1 $words
    compare "$words, beside a run: the file" before locked
done
absent 'copy, beside a run' made
copied locked of_locked 64 34 --no-lock
printf 'alternatives 1\ncheckpoints 0\nfree 30\n' >output
: >faults
program 'check --no-lock, beside a run' 0 check --no-lock locked
echo 'get top 1 1' >lines
"$altctl" run --wait locked <lines >waited.came 2>&1 9>&- &
waiter=$!
"$altctl" copy --wait locked made >copied.came 2>&1 9>&- &
copier=$!
sleep 0.5
: >output
compare 'run --wait, beside a run' output waited.came
compare 'copy --wait, beside a run' output copied.came
absent 'copy --wait, beside a run' made
echo commit >&9
exec 9>&-
wait "$holder" "$waiter" "$copier"
echo 'copied 64, 35 used' >output
compare 'copy --wait, after a run' output copied.came
rm made
printf 'ok\nok\n' >output
compare 'the run that held the lock' output answers.came
echo 'value a' >output
compare 'run --wait, behind a run' output waited.came

# Whoever holds the lock hands it down, or says that it is held. A shared one lets others read.
if command -v flock >/dev/null; then
    : >lines
    echo 'value a' >output
    flock -n locked "$altctl" do locked 'get top 1 1' >came 2>&1
    compare 'a lock that is handed down' output came
    flock -n -o locked "$altctl" do --no-lock locked 'get top 1 1' >came 2>&1
    compare 'a lock that is not handed down' output came
    exec 8<locked
    flock -s 8
    printf 'alternatives 1\ncheckpoints 0\nfree 29\n' >output
    "$altctl" check locked >came 2>&1 8<&-
    compare 'check beside a shared lock' output came
    echo 'copied 64, 35 used' >output
    "$altctl" copy locked made >came 2>&1 8<&-
    compare 'copy beside a shared lock' output came
    rm made
    echo 'altctl: locked is in use' >output
    "$altctl" do locked free >came 2>&1 8<&- || :
    compare 'do beside a shared lock' output came
    exec 8<&-
fi
# No lock is left behind, and a file that is not there is not made.
echo 'free 29' >output
: >faults
program 'do after all of it' 0 do locked free
: >output
echo 'altctl: cannot open nowhere' >faults
program 'a file that is not there' 1 run --wait nowhere
absent 'a file that is not there' nowhere

# --- the script that starts the program ------------------------------------------------------------

script=$tools/../altctl

mkdir links
ln -s "$script" links/first
ln -s first links/second
ln -s ../links/second links/third
: >lines
"$script" --help >output
: >faults
altctl=links/third
program 'through three links' 0 --help

# A limit on the size of files.
cat >limited <<'END'
#!/bin/sh
ulimit -f "$limit"
exec "$script" "$@"
END
chmod +x limited
export limit=256 script
altctl=./limited
: >output
echo 'altctl: cannot create limits' >faults
program 'create over a limit' 1 create limits 64
echo 'altctl: cannot create copies.part' >faults
program 'copy over a limit' 1 copy locked copies
absent 'copy over a limit' copies
echo 'altctl: 19 NotAStore' >faults
program 'check of what a copy over a limit left' 1 check copies.part
cp copies.part left
echo 'altctl: cannot create copies.part' >faults
limit=unlimited
program 'copy beside what a copy over a limit left' 1 copy locked copies
absent 'copy beside what a copy over a limit left' copies
compare 'what a copy over a limit left' left copies.part
rm copies.part

# An opening for writing writes the selector, block 1, again.
limit=8
printf 'put top 1 2 b\nfree\n' >lines
: >output
echo 'altctl: cannot open spelled' >faults
cp spelled before
program 'an opening over a limit' 1 run spelled
compare 'an opening over a limit: the file' before spelled

limit=16
echo 'error 15 Device' >output
echo 'altctl: stopped' >faults
program 'run over a limit' 3 run --buffer 0 spelled
compare 'run over a limit: the file' before spelled

# Where written blocks wait, the fault comes with the commit that needs them.
printf 'put top 1 2 b\nfree\ncommit\nfree\n' >lines
printf 'ok\nfree 28\nerror 15 Device\n' >output
program 'a commit over a limit' 3 run spelled
compare 'a commit over a limit: the file' before spelled

limit=560
printf 'put top 1 2 b\ngrow 70\nfree\n' >lines
printf 'ok\nok\nfree 34\n' >output
: >faults
program 'a growth up to a limit' 0 run spelled
has_bytes spelled 286720
printf 'grow 71\nfree\n' >lines
echo 'error 15 Device' >output
echo 'altctl: stopped' >faults
program 'a growth over a limit' 3 run spelled
has_bytes spelled 286720

# A build that is refused, one that is interrupted, and one that goes on from there: `rt` is a script here, which stops
# at a crate until it may go on, and is refused there then.
mkdir -p built/crates/low/src built/crates/high/src built/crates/altctl/src built/bin built/tmp built/tools
cp "$script" built/altctl
cp "$tools/build.sh" "$tools/sources.sh" built/tools
printf 'altctl: high clap # the program\nhigh: low\nlow:\nother: low\n' >built/crates.txt
for file in low/src/lib.rt high/src/lib.rt altctl/src/main.rt; do echo "// $file" >"built/crates/$file"; done
cat >built/bin/rt <<'END'
#!/bin/sh
crate=$(basename "$PWD")
echo "$crate $*" >>"$session_calls"
if [ "$crate" = "$session_stops" ]; then
    echo $$ >"$session_pid"
    mktemp >/dev/null
    : >"$session_begun"
    until [ -e "$session_go" ]; do sleep 1; done
    echo 'a proof is missing'
    exit 1
fi
if [ "$crate" = altctl ]; then
    mkdir -p out
    printf '#!/bin/sh\necho "started with $*"\n' >out/altctl
    chmod +x out/altctl
fi
END
chmod +x built/bin/rt
export session_begun="$work/built/begun" session_go="$work/built/go" session_pid="$work/built/pid"
export session_calls="$work/built/calls" session_stops=high

# Starts that script, and interrupts it where the first word says so. Compares its status with the second, its output
# with `output`, its standard error with `faults`, and the calls of `rt` with `calls`. Nothing of the build may be left.
builds() {
    rm -f "$session_begun" "$session_go" "$session_calls" "$session_pid"
    PATH=$work/built/bin:$PATH TMPDIR=$work/built/tmp built/altctl --help >output.came 2>faults.all &
    if [ "$session_stops" = high ]; then
        until [ -e "$session_begun" ]; do sleep 1; done
        [ "$1" != interrupted ] || kill -TERM $!
        [ "$1" = interrupted ] || : >"$session_go"
    fi
    echo "$2" >status
    came=0
    wait $! || came=$?
    echo "$came" >status.came
    compare "a build that is $1: status" status status.came
    compare "a build that is $1: output" output output.came
    sed 's/[0-9]*:[0-9][0-9] gone/TIME gone/; /^altctl: building/d' faults.all >faults.came
    compare "a build that is $1: standard error" faults faults.came
    compare "a build that is $1: calls of rt" calls "$session_calls"
    : >none
    ls built/tmp >left
    compare "a build that is $1: temporary files" none left
    if [ -e "$session_pid" ] && kill -0 "$(cat "$session_pid")" 2>/dev/null; then
        echo "a build that is $1: rt still runs"
        differences=$((differences + 1))
    fi
}

: >output
printf 'low lib\nhigh lib\n' >calls
cat >faults <<'END'
altctl: 1 of 3: low .., TIME gone
altctl: 2 of 3: high .., TIME gone
a proof is missing
altctl: high could not be built
END
builds refused 1

printf '%s\n' \
    'altctl: it is not built yet, and rt, the command of the Rattle toolchain that builds it, is not found' >faults.due
mkdir built/few
for name in awk cut dirname find mktemp readlink rm sed sha256sum sort touch xargs; do
    ln -s "$(command -v "$name")" built/few/
done
came=0
PATH=$work/built/few TMPDIR=$work/built/tmp /bin/sh built/altctl --help >output.came 2>faults.came || came=$?
compare 'no rt: standard error' faults.due faults.came

{
    sed -n 1,2p faults
    echo 'altctl: interrupted: the next start goes on with high'
} >faults.interrupted
mv faults.interrupted faults
builds interrupted 143

session_stops=
echo 'started with --help' >output
echo 'altctl run -- --help' >>calls
sed -i '$d' faults
cat >>faults <<'END'
altctl: 3 of 3: altctl .., TIME gone
altctl: built, TIME gone
END
cp faults faults.built
builds whole 0

: >calls
: >faults
: >"$session_calls"
PATH=$work/built/bin:$PATH built/altctl --help >output.came 2>faults.came
compare 'a start after the build: output' output output.came
compare 'a start after the build: standard error' faults faults.came
compare 'a start after the build: calls of rt' calls "$session_calls"

# The program that dist/ carries, here a script, is started where it is whole and the sources are those that it was made
# of, and said to be that once. `carried NAME` compares a start with `output`, `faults` and `calls`.
carried() {
    : >"$session_calls"
    PATH=$work/built/bin:$PATH TMPDIR=$work/built/tmp built/altctl --help >output.came 2>faults.all
    sed 's/[0-9]*:[0-9][0-9] gone/TIME gone/; /^altctl: building/d' faults.all >faults.came
    compare "$1: output" output output.came
    compare "$1: standard error" faults faults.came
    compare "$1: calls of rt" calls "$session_calls"
    : >none
    ls built/tmp >left
    compare "$1: temporary files" none left
}

cp faults.built faults
printf 'low lib\nhigh lib\naltctl run -- --help\n' >calls
mkdir built/dist
printf '#!/bin/sh\necho "carried with $*"\n' >built/dist/altctl-x86_64-linux
chmod +x built/dist/altctl-x86_64-linux
echo '// changed' >built/crates/high/src/lib.rt
(
    cd built
    printf 'low:\nhigh: low\naltctl: high clap\n' >sums
    sha256sum crates/altctl/src/main.rt crates/high/src/lib.rt crates/low/src/lib.rt >>sums
    echo "sources $(sha256sum <sums | cut -d ' ' -f 1)"
    echo "program $(sha256sum <dist/altctl-x86_64-linux | cut -d ' ' -f 1)"
) >sums
sed 's/^sources ./sources x/' sums >built/dist/altctl-x86_64-linux.txt
carried 'dist/ carries the program of other sources'
rm -r built/crates/altctl/out
sed 's/^program ./program x/' sums >built/dist/altctl-x86_64-linux.txt
carried 'dist/ carries a program that is not whole'

rm -r built/crates/altctl/out
cp sums built/dist/altctl-x86_64-linux.txt
echo 'carried with --help' >output
echo 'altctl: the program that dist/ carries, made of these sources; `rt ci` proves them and makes it anew' >faults
: >calls
carried 'dist/ carries the program of these sources'
: >faults
carried 'a second start'
touch built/crates/high/src/lib.rt
carried 'a start after a source was touched'
rm -r built/crates/altctl/out
: >built/crates/altctl/out
carried 'a start where nothing can be written'

# --- the script that installs ------------------------------------------------------------------------

for prefix in installed 'installed here/too'; do
    printf 'install: %s\n' "$prefix/bin/altctl" "$prefix/share/man/man1/altctl.1" \
        "$prefix/bin is not in PATH yet" >output
    came=0
    "$tools/release/install.sh" "$prefix" >output.all || came=$?
    grep -E '(/bin/altctl|/altctl\.1|PATH yet)$' output.all >output.came
    compare "install into $prefix: output" output output.came
    compare "install into $prefix: the program" "$tools/../crates/altctl/out/altctl" "$prefix/bin/altctl"
    compare "install into $prefix: the page" "$tools/../docs/altctl.1" "$prefix/share/man/man1/altctl.1"
    find "$prefix" -name '*.new' | wc -l >left
    echo 0 >none
    compare "install into $prefix: temporary files" none left
done
altctl=installed/bin/altctl
create made 64
session 'the installed program' made <<'END'
> free
free 30
END
came=0
"$tools/release/install.sh" one two >output.came 2>&1 || came=$?
echo 'usage: tools/release/install.sh [PREFIX]' >output
compare 'install with two words' output output.came

if [ "$differences" -gt 0 ]; then
    echo "session: $differences differences"
    exit 1
fi
echo 'session: all is as expected'
