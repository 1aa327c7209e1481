#!/bin/sh
# Puts all that an installation has below a folder, and names each file: `tools/release/place.sh PREFIX [AS [aarch64]]`.
# AS is the folder where PREFIX will be once it is installed, if that is another one. `tools/release/install.sh` and
# `tools/release/package.sh` use this script, so both put the same files. Without a C compiler the libraries are left
# out, with a line that says so; and libaltstore is not there if its archive is not built, nor for aarch64, whose
# program and libraries `tools/release/aarch64.sh` builds.
set -eu

# Mode, source and target of each file. Sources in `made/` are made below. The mode `link` makes a link to the source.
files() {
    cat <<END
755 $program bin/altctl
644 clients/bash/altctl.bash share/bash-completion/completions/altctl
644 clients/c/altctl.h include/altctl.h
644 clients/python/altctl.py share/zonegrater/clients/python/altctl.py
644 clients/lines.json share/zonegrater/clients/lines.json
755 tools/upgrade.py share/zonegrater/tools/upgrade.py
644 tools/sums.py share/zonegrater/tools/sums.py
link ../../../share/zonegrater/clients/python/altctl.py lib/python3/dist-packages/altctl.py
644 made/altserve@.service lib/systemd/system/altserve@.service
644 tools/release/systemd/altserve@.socket lib/systemd/system/altserve@.socket
644 README.md share/doc/zonegrater/README.md
644 CHANGELOG.md share/doc/zonegrater/CHANGELOG.md
644 desk/README.md share/doc/zonegrater/desk/README.md
END
    [ -z "$has_libraries" ] || cat <<END
644 made/libaltctl.a lib/libaltctl.a
644 made/$shared lib/$shared
link $shared lib/libaltctl.so
644 made/altctl.pc lib/pkgconfig/altctl.pc
END
    [ -z "$has_altstore" ] || cat <<END
644 clients/c/altstore.h include/altstore.h
644 made/libaltstore.a lib/libaltstore.a
644 made/libaltstore.so.0 lib/libaltstore.so.0
link libaltstore.so.0 lib/libaltstore.so
644 made/altstore.pc lib/pkgconfig/altstore.pc
644 clients/python/altstore.py share/zonegrater/clients/python/altstore.py
link ../../../share/zonegrater/clients/python/altstore.py lib/python3/dist-packages/altstore.py
END
    for it in altserve altdesk altcarry altgis; do
        echo "755 desk/$it share/zonegrater/desk/$it"
        echo "link ../share/zonegrater/desk/$it bin/$it"
    done
    for it in desk/[!t]*.py desk/altqgis/*.py desk/altqgis/metadata.txt desk/carry/*.py desk/gis/*.py desk/maps/*.py \
        desk/service/*.py desk/page/*; do
        echo "644 $it share/zonegrater/$it"
    done
    for it in docs/*.md docs/pictures/*; do
        echo "644 $it share/doc/zonegrater/$it"
    done
    for it in docs/*.1; do
        echo "644 $it share/man/man1/${it#docs/}"
    done
}

# The program that lies in out/ is that of these sources, as `./altctl` has seen to. If nothing can be written there, it
# is the one of dist/.
find_program() {
    ./altctl --version >"$scratch/version"
    program=crates/altctl/out/altctl
    [ -x "$program" ] || program=dist/altctl-x86_64-linux
    version=$(sed -n '1s/^altctl //p' "$scratch/version")
    [ -z "$arch" ] || {
        tools/release/aarch64.sh program
        program=crates/altctl/out/altctl-$arch
    }
}

# The libraries of the C client, whose bytes do not depend on where this folder lies.
make_libraries() {
    has_libraries=
    has_altstore=
    [ -n "$arch" ] || command -v cc >/dev/null || {
        echo 'lib/libaltctl.* is left out: there is no C compiler (cc)'
        return
    }
    has_libraries=yes
    if [ -n "$arch" ]; then
        tools/release/aarch64.sh client "$made"
    else
        cc -std=c99 -O2 -g0 -fPIC -Wall -Wextra -c -o "$made/altctl.o" clients/c/altctl.c
        ar rcsD "$made/libaltctl.a" "$made/altctl.o"
        cc -shared -pthread -Wl,-soname,"$shared" -Wl,--build-id=none -Wl,-s -o "$made/$shared" "$made/altctl.o"
    fi
    cat >"$made/altctl.pc" <<END
prefix=$as
Name: altctl
Description: a version managed map store from C and C++
Version: $version
Cflags: -I\${prefix}/include
Libs: -L\${prefix}/lib -laltctl
Libs.private: -pthread
END
    [ -z "$arch" ] || return 0
    tools/release/altstore.sh "$made" >"$scratch/altstore" || {
        echo "lib/libaltstore.* is not there: $(cat "$scratch/altstore")"
        return
    }
    has_altstore=yes
    cat >"$made/altstore.pc" <<END
prefix=$as
Name: altstore
Description: a version managed map store in memory, from C and C++
Version: $version
Cflags: -I\${prefix}/include
Libs: -L\${prefix}/lib -laltstore
END
}

# The unit of the service, with the paths that its programs will have.
make_unit() {
    sed "s,@PREFIX@,$as,g" tools/release/systemd/altserve@.service >"$made/altserve@.service"
}

# Puts a file in place whole: a program that runs meanwhile keeps the old one.
put() {
    mode=$1
    source=$2
    target=$prefix/$3
    case $source in
    made/*) source=$scratch/$source ;;
    esac
    mkdir -p "$(dirname -- "$target")"
    rm -f "$target.new"
    if [ "$mode" = link ]; then
        ln -s -- "$source" "$target.new"
    else
        cp -- "$source" "$target.new"
        chmod "$mode" "$target.new"
    fi
    mv -fT -- "$target.new" "$target"
    echo "$3"
}

case $#:${3-aarch64} in
[123]:aarch64) ;;
*)
    echo 'usage: tools/release/place.sh PREFIX [AS [aarch64]]' >&2
    exit 2
    ;;
esac
umask 022
mkdir -p -- "$1"
prefix=$(CDPATH='' cd -- "$1" && pwd)
as=${2-$prefix}
arch=${3-}
shared=libaltctl.so.0
cd "$(dirname -- "$0")/../.."
scratch=$(mktemp -d)
trap 'rm -rf "$scratch"' EXIT
made=$scratch/made
mkdir "$made"
find_program
make_libraries
make_unit
files | while read -r mode source target; do
    put "$mode" "$source" "$target"
done
