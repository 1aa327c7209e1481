#!/bin/sh
# Makes the packages for x86-64 in a folder: `tools/release/package.sh FOLDER` writes zonegrater_VERSION_amd64.deb and
# zonegrater-VERSION-x86_64-linux.tar.gz, and says their names. `tools/release/package.sh --arch aarch64 FOLDER` makes
# those for aarch64, which end in _arm64.deb and -aarch64-linux.tar.gz; where what `tools/release/aarch64.sh` needs is
# not installed, a line on standard error says so, and the status is 1. The same commit gives the same bytes wherever it
# lies, with the same C compiler (for aarch64, the same toolchain and cross packages) and dpkg-deb: times are that of
# the commit, names are sorted, owners and modes fixed. `tools/release/place.sh` has the list of files.
# `tools/release/test_package.py` tests them.
set -eu

arch=x86_64 debian=amd64
if [ "${1-}" = --arch ]; then
    case ${2-} in
    x86_64) ;;
    aarch64) arch=aarch64 debian=arm64 ;;
    *) set -- ;;
    esac
    [ $# -eq 0 ] || shift 2
fi
[ $# -eq 1 ] || {
    echo 'usage: tools/release/package.sh [--arch x86_64|aarch64] FOLDER' >&2
    exit 2
}
mkdir -p -- "$1"
folder=$(CDPATH='' cd -- "$1" && pwd)
cd "$(dirname -- "$0")/../.."
scratch=$(mktemp -d)
trap 'rm -rf "$scratch"' EXIT
export LC_ALL=C TZ=UTC
umask 022

SOURCE_DATE_EPOCH=$(git log -1 --format=%ct)
export SOURCE_DATE_EPOCH
root=$scratch/root
set -- "$root/usr" /usr
[ $arch = x86_64 ] || set -- "$@" $arch
tools/release/place.sh "$@" >"$scratch/placed"
if grep 'left out' "$scratch/placed" >&2; then
    exit 1
fi
gzip -9n "$root"/usr/share/man/man1/*.1
version=$(sed -n 's/^Version: //p' "$root/usr/lib/pkgconfig/altctl.pc")
version=$version+$(date -d "@$SOURCE_DATE_EPOCH" +%Y%m%d.%H%M%S).$(git rev-parse --short=12 HEAD)
[ -z "$(git status --porcelain)" ] || version=$version.changed

# A folder's files with the time of the commit, links too.
date_all() {
    find "$1" -exec touch -h -d "@$SOURCE_DATE_EPOCH" {} +
}

date_all "$root"
archive=zonegrater-$version-$arch-linux
mv "$root/usr" "$scratch/$archive"
# In an archive that is unpacked anywhere the folder of the libraries is told by the place of the file.
sed -i 's,^prefix=.*,prefix=${pcfiledir}/../..,' "$scratch/$archive"/lib/pkgconfig/*.pc
date_all "$scratch/$archive"
tar -C "$scratch" --sort=name --format=ustar --owner=0 --group=0 --numeric-owner -cf - "$archive" |
    gzip -9n >"$folder/$archive.tar.gz"
mv "$scratch/$archive" "$root/usr"
sed -i 's,^prefix=.*,prefix=/usr,' "$root"/usr/lib/pkgconfig/*.pc

mkdir "$root/DEBIAN"
cat >"$root/DEBIAN/control" <<END
Package: zonegrater
Version: $version
Architecture: $debian
Maintainer: Zonegrater maintainers <maintainers@users.noreply.zonegrater.example>
Installed-Size: $(find "$root/usr" -type f -printf '%s\n' | awk '{ sum += int(($1 + 1023) / 1024) } END { print sum }')
Depends: libc6 (>= 2.34), adduser
Recommends: python3 (>= 3.9)
Suggests: bash-completion, python3-gdal, python3-aiohttp, libjs-leaflet
Section: misc
Priority: optional
Description: version managed map store
 Many designs of one network in one file, edited side by side, merged record
 by record and committed. It has the program altctl, its clients for C, C++
 and Python, the service altserve for many planners at once, altdesk, which
 shows designs in a browser, altcarry for offices far away, and altgis, which
 brings maps in and out.
END
for it in postinst prerm postrm; do
    install -m 755 tools/release/debian/$it "$root/DEBIAN/$it"
done
echo 'activate-noawait ldconfig' >"$root/DEBIAN/triggers"
date_all "$root"
deb=zonegrater_${version}_$debian.deb
dpkg-deb --root-owner-group -Zxz --build "$root" "$folder/$deb" >/dev/null
echo "$folder/$deb"
echo "$folder/$archive.tar.gz"
