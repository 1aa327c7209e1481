#!/bin/sh
# Runs the program over a file that GlusterFS keeps three times, and takes copies away while it writes:
# `tools/faults/replicated.sh [ALTCTL]`. Each commit that was acknowledged has to be there afterwards, with one of three
# bricks killed; with two gone no commit may be answered `ok`; after healing all three hold the same bytes. A file that
# was opened while a brick was away, as docs/TWO-MACHINES.md has the volume, is opened again once that is healed: then
# another brick may go. The same over a loop device on the volume. If something is not installed or not allowed, it says
# so and ends with status 0.
#
# It makes namespaces of its own for network, mounts and processes: nothing of it is left when it ends.
set -eu

top=$(CDPATH='' cd -- "$(dirname -- "$0")/../.." && pwd)

skip() {
    echo "replicated: skipped: $1"
    exit 0
}

fail() {
    echo "replicated: $1"
    exit 1
}

if [ "${1-}" != --inside ]; then
    altctl=$(realpath -- "${1-$top/altctl}")
    for it in glusterd gluster mount.glusterfs unshare losetup flock python3; do
        command -v "$it" >/dev/null || skip "$it is not installed"
    done
    [ "$(id -u)" = 0 ] || skip 'only root may make the namespaces and mounts'
    [ -e /dev/fuse ] || skip 'there is no /dev/fuse'
    unshare --net --mount --pid --fork --mount-proc true 2>/dev/null || skip 'namespaces are not allowed here'
    folder=$(mktemp -d)
    status=0
    # The shell is process 1 there and reaps killed bricks; otherwise glusterd would take them for running ones.
    unshare --net --mount --pid --fork --kill-child --mount-proc \
        sh -c 'timeout 280 "$0" --inside "$@"; exit $?' "$0" "$altctl" "$folder" || status=$?
    # A loop device belongs to no namespace.
    if [ -s "$folder/device" ]; then
        losetup --detach "$(cat "$folder/device")" 2>/dev/null || :
    fi
    rm -rf "$folder"
    exit "$status"
fi

altctl=$2
folder=$3
address=10.99.0.1
mount=$folder/mount
file=$mount/map.alt

# The cluster: a management daemon, three bricks and a mount.

run_gluster() {
    gluster --mode=script "$@" >"$folder/said" 2>&1 || fail "gluster $*: $(cat "$folder/said")"
}

start_cluster() {
    ip link set lo up && ip address add "$address/32" dev lo || skip 'the network of a namespace cannot be set up'
    [ ! -d /var/lib/glusterd/groups ] || cp -r /var/lib/glusterd/groups "$folder/groups"
    for it in /var/lib/glusterd /var/run/gluster /var/log/glusterfs; do
        mkdir -p "$it" && mount -t tmpfs tmpfs "$it" || skip 'a mount is not allowed here'
    done
    [ ! -d "$folder/groups" ] || cp -r "$folder/groups" /var/lib/glusterd/
    mkdir "$folder/1" "$folder/2" "$folder/3" "$mount" "$mount-2"
    glusterd || skip 'glusterd does not start here'
    for _ in 1 2 3 4 5 6 7 8 9 10; do
        gluster volume info >/dev/null 2>&1 && break
        sleep 1
    done
    gluster --mode=script volume create kept replica 3 \
        "$address:$folder/1" "$address:$folder/2" "$address:$folder/3" force \
        >"$folder/said" 2>&1 || skip "no volume can be made here: $(cat "$folder/said")"
    run_gluster volume start kept
    mount_volume "$mount"
}

mount_volume() {
    mount -t glusterfs "$address:/kept" "$1" || fail 'the volume cannot be mounted'
}

# The process of a brick.
brick() {
    cat /var/run/gluster/vols/kept/*-"$1".pid
}

# Starts the bricks that were killed, and waits until all three hold the same.
heal() {
    run_gluster volume start kept force
    for _ in $(seq 60); do
        # It is refused until the healing process has found the bricks.
        gluster --mode=script volume heal kept >/dev/null 2>&1 || :
        gluster volume heal kept info 2>/dev/null >"$folder/said"
        [ "$(grep -c '^Number of entries: 0$' "$folder/said")" = 3 ] && return
        sleep 1
    done
    fail "not healed within a minute: $(cat "$folder/said")"
}

compare_bricks() {
    umount "$mount"
    [ "$(cd "$folder" && sha256sum "1/$1" "2/$1" "3/$1" | cut -d' ' -f1 | sort -u | wc -l)" = 1 ] ||
        fail "the three bricks hold other bytes of $1"
    mount_volume "$mount"
}

# The load: batches of 100 puts, a commit after each. `load FILE COUNT [PROCESS ..]` kills these processes in the
# middle, and appends the numbers of the acknowledged batches to those of earlier loads.
load() {
    python3 - "$altctl" "$folder/acknowledged" "$@" <<'PYTHON'
import os, signal, sys, time
sys.path.insert(0, os.environ["CLIENT"])
from altctl import Ended, Refusal, Store

altctl, acknowledged, file, count, *victims = sys.argv[1:]
first = int(open(f"{acknowledged}.next").read()) if os.path.exists(f"{acknowledged}.next") else 0
open(f"{acknowledged}.next", "w").write(str(first + int(count)))
begun, done, after = time.monotonic(), 0, 0
with open(acknowledged, "a", buffering=1) as log:
    try:
        with Store(file, altctl) as store:
            for batch in range(first, first + int(count)):
                if victims and batch == first + int(count) // 2:
                    for it in victims:
                        os.kill(int(it), signal.SIGKILL)
                for number in range(100):
                    store.put("top", 1, 100 * batch + number, b"%d" % batch)
                store.commit()
                print(batch, file=log)
                done += 1
                after += bool(victims) and batch >= first + int(count) // 2
    except (Ended, Refusal) as fault:
        print(f"    stopped: {fault}")
rate = done / (time.monotonic() - begun)
print(f"    {done} of {count} batches acknowledged, {after} of them after the kill, {rate:.0f} a second")
open(f"{acknowledged}.after", "w").write(str(after))
PYTHON
}

# Whether each acknowledged batch is there whole, and each other one whole or not at all.
look() {
    python3 - "$altctl" "$folder/acknowledged" "$1" <<'PYTHON' || fail "what was acknowledged is not there: $2"
import os, sys
sys.path.insert(0, os.environ["CLIENT"])
from altctl import Store

altctl, acknowledged, file = sys.argv[1:]
with Store(file, altctl) as store:
    records = {it.number: it.value for it in store.list("top")}
batches = {number // 100 for number in records}
whole = {it for it in batches if all(records.get(100 * it + number) == b"%d" % it for number in range(100))}
missing = set(map(int, open(acknowledged))) - whole
print(f"    {len(whole)} batches are there whole, {len(batches - whole)} in part, {len(missing)} are missing")
sys.exit(bool(missing or batches - whole))
PYTHON
}

# A loop device over a file on the volume.
attach() {
    device=$(losetup --find --show "$mount/disk") && echo "$device" >"$folder/device"
}

detach() {
    losetup --detach "$device" && rm "$folder/device"
}

after_kill() {
    cat "$folder/acknowledged.after"
}

try_bricks() {
    target=$1
    echo "  one of three bricks is killed ($2)"
    load "$target" 60 "$(brick 1)"
    [ "$(after_kill)" = 30 ] || fail "the load did not go on with two bricks"
}

# A session that stays open, and its answer to a line.
open_session() {
    rm -f "$folder/lines" "$folder/answers" && mkfifo "$folder/lines" "$folder/answers"
    "$altctl" run "$file" <"$folder/lines" >"$folder/answers" &
    exec 3>"$folder/lines" 4<"$folder/answers"
}

ask() {
    echo "$1" >&3
    read -r answer <&4 && echo "$answer"
}

close_session() {
    exec 3>&- 4<&-
    wait $! || :
}

export CLIENT="$top/clients/python"
start_cluster
echo "replicated: $(gluster --version | head -n 1), $("$altctl" --version | head -n 1)"
"$altctl" create "$file" 4096 >/dev/null
try_bricks "$file" 'a file'
umount "$mount" && mount_volume "$mount"
look "$file" 'after a mount without the brick'
heal
compare_bricks map.alt
look "$file" 'after healing'

mount_volume "$mount-2"
flock -n "$file" flock -n "$mount-2/map.alt" true && fail 'the lock does not hold over two mounts'
umount "$mount-2"
echo '  the lock holds over two mounts'

echo '  two of three bricks are killed'
load "$file" 20 "$(brick 2)" "$(brick 3)"
[ "$(after_kill)" = 0 ] || fail 'a commit was acknowledged with one brick of three'
heal
umount "$mount" && mount_volume "$mount"
look "$file" 'after two bricks were gone'
load "$file" 10
look "$file" 'after the load went on'

echo '  a file is opened while a brick is away'
run_gluster volume set kept client.strict-locks on
run_gluster volume set kept group db-workload
umount "$mount" && mount_volume "$mount"
kill -9 "$(brick 1)"
open_session
[ "$(ask 'put top 2 1 a') $(ask commit)" = 'ok ok' ] || fail 'no commit with two bricks'
heal
close_session
open_session
[ "$(ask 'put top 2 2 a') $(ask commit)" = 'ok ok' ] || fail 'no commit once it was opened again'
kill -9 "$(brick 2)"
[ "$(ask 'put top 2 3 a') $(ask commit)" = 'ok ok' ] || fail 'the brick that was away is not written to'
close_session
seen=$("$altctl" do "$file" 'get top 2 1' 'get top 2 2' 'get top 2 3' | sort -u)
[ "$seen" = 'value a' ] || fail 'a commit is not there'
heal
run_gluster volume reset kept client.strict-locks
umount "$mount" && mount_volume "$mount"

truncate -s 16M "$mount/disk"
attach || { echo 'replicated: all that was acknowledged was there; skipped: no loop device can be had here'; exit 0; }
rm -f "$folder/acknowledged" "$folder/acknowledged.next"
"$altctl" create "$folder/small" 4096 >/dev/null
dd if="$folder/small" of="$device" bs=4096 conv=fsync 2>/dev/null
try_bricks "$device" 'a loop device'
detach
umount "$mount" && mount_volume "$mount"
attach
look "$device" 'on the loop device, after a mount without the brick'
detach
heal
compare_bricks disk
attach
look "$device" 'on the loop device, after healing'
detach
umount "$mount"
run_gluster volume stop kept
echo 'replicated: all that was acknowledged was there'
