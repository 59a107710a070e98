#!/usr/bin/env bash
# Makes the Debian packages ruvkhiska, libruvkhiska1, libruvkhiska-dev and python3-ruvkhiska, for amd64, in a folder. `make deb`
# calls it.
#
#     install/deb.sh FOLDER          needs dpkg-deb and binutils; no root
#
# MAINTAINER is the maintainer's name and address. The variables PEOPLE, PROGRAM and LIBRARIES are those of install/install.sh.
set -eu
umask 022
mkdir -p "$1"
folder=$(realpath "$1")
cd "$(dirname "$0")/.."
version=$(cat install/version)
major=${version%%.*}
maintainer=${MAINTAINER:-$(git log -1 --format='%an <%ae>' 2> /dev/null || true)}
[ -n "$maintainer" ] || { echo "no maintainer: MAINTAINER='NAME <ADDRESS>'" >&2; exit 2; }
# Packages of the same commit are the same octet by octet.
SOURCE_DATE_EPOCH=${SOURCE_DATE_EPOCH:-$(git log -1 --format=%ct 2> /dev/null || stat -c %Y install/version)}
export SOURCE_DATE_EPOCH
lib=usr/lib/x86_64-linux-gnu
work=$(mktemp -d)
trap 'rm -rf "$work"' EXIT
all=$work/all

# move PACKAGE PATH..: moves files of the installation into a package.
move() {
    local package=$1 it
    shift
    for it; do
        mkdir -p "$work/$package/$(dirname "$it")"
        mv "$all/$it" "$work/$package/$it"
    done
}

# needs PATH..: the packages of the libraries that programs need, with the version of the C library by those of its symbols.
needs() {
    local least others
    least=$(objdump -T "$@" | grep -o 'GLIBC_[0-9.]*' | sed 's/GLIBC_//' | sort -V | tail -n 1)
    others=$(objdump -p "$@" | awk '$1 == "NEEDED" && $2 !~ /^(libc|libm|libdl|libpthread|ld-linux-x86-64)\.so\./ { print $2 }' | sort -u)
    case $others in
        '') echo "libc6 (>= $least)" ;;
        libgcc_s.so.1) echo "libc6 (>= $least), libgcc-s1" ;;
        *) echo "no package is known for" "$others" >&2; return 1 ;;
    esac
}

# architecture PACKAGE
architecture() {
    case $1 in python3-*) echo all ;; *) echo amd64 ;; esac
}

# script PACKAGE NAME: writes a script of the package's installation from standard input. It does nothing under dpkg --root.
script() {
    # shellcheck disable=SC2016
    { printf '#!/bin/sh\nset -e\n[ -z "$DPKG_ROOT" ] || exit 0\n'; cat; } > "$work/$1/DEBIAN/$2"
    chmod 755 "$work/$1/DEBIAN/$2"
}

# describe PACKAGE SECTION DEPENDS SUMMARY TEXT: writes the package's description and what each package must have.
describe() {
    local package=$1 root=$work/$1 doc=$work/$1/usr/share/doc/$1
    mkdir -p "$root/DEBIAN" "$doc"
    echo 'No licence of Ruvkhiska is chosen yet.' > "$doc/copyright"
    printf 'ruvkhiska (%s) UNRELEASED; urgency=medium\n\n  * CHANGELOG.md of the package ruvkhiska has the changes.\n\n -- %s  %s\n' \
        "$version" "$maintainer" "$(date -u -R -d "@$SOURCE_DATE_EPOCH")" | gzip -9n > "$doc/changelog.gz"
    {
        printf 'Package: %s\nSource: ruvkhiska\nVersion: %s\nMaintainer: %s\n' "$package" "$version" "$maintainer"
        printf 'Architecture: %s\n' "$(architecture "$package")"
        case $package in lib*) echo 'Multi-Arch: same' ;; esac
        [ "$package" != ruvkhiska ] || echo 'Recommends: python3-xmlschema'
        printf 'Installed-Size: %s\nDepends: %s\nSection: %s\nPriority: optional\n' "$(du -k -s --apparent-size "$root" | cut -f 1)" "$3" "$2"
        printf 'Description: %s\n%s\n' "$4" "$(fold -s -w 76 <<< "$5" | sed 's/^/ /; s/ *$//')"
    } | grep -v "^Source: $package$" > "$root/DEBIAN/control"
    (cd "$root" && find usr -type f -print0 | sort -z | xargs -0 md5sum > DEBIAN/md5sums)
}

DESTDIR=$all PREFIX=/usr LIBDIR=/$lib PYTHONDIR=/usr/lib/python3/dist-packages ZSHDIR=/usr/share/zsh/vendor-completions install/install.sh install > "$work/log"
rm "$all/usr/share/doc/ruvkhiska/installed"
strip --remove-section=.comment "$all/usr/bin/ruvkhiska" "$all/usr/bin/transcode"
strip --strip-unneeded --remove-section=.comment "$all/$lib/libruvkhiska.so.$version"
strip --strip-debug --enable-deterministic-archives "$all/$lib/libruvkhiska.a"
gzip -9n "$all"/usr/share/man/man?/*
sed -i '1s|.*|#!/usr/bin/python3|' "$all/usr/bin/ruvkhiska-narrow"

move "libruvkhiska$major" "$lib/libruvkhiska.so.$version" "$lib/libruvkhiska.so.$major"
move libruvkhiska-dev usr/include "$lib/libruvkhiska.a" "$lib/libruvkhiska.so" "$lib/pkgconfig" usr/share/man/man3
move python3-ruvkhiska usr/lib/python3
move ruvkhiska usr/bin usr/share
(cd "$all" && find . -type f -o -type l) | grep . && { echo 'no package has these files' >&2; exit 1; }

text='Ruvkhiska maps a W3C XML Schema to ASN.1 (ITU-T X.694) and encodes documents of that schema in canonical PER (X.691, aligned or unaligned) or DER (X.690).'
library=$(needs "$work/libruvkhiska$major/$lib/libruvkhiska.so.$version")
programs=$(needs "$work/ruvkhiska/usr/bin/ruvkhiska" "$work/ruvkhiska/usr/bin/transcode")
describe "libruvkhiska$major" libs "$library" \
    'XML documents as canonical PER or DER (C library)' "$text This package has the shared library."
echo "libruvkhiska $major libruvkhiska$major (>= $version)" > "$work/libruvkhiska$major/DEBIAN/shlibs"
echo 'activate-noawait ldconfig' > "$work/libruvkhiska$major/DEBIAN/triggers"
describe libruvkhiska-dev libdevel "libruvkhiska$major (= $version)" \
    'XML documents as canonical PER or DER (C header)' "$text This package has the header, the static library and their manual page."
describe ruvkhiska utils "$programs, python3:any" \
    'XML documents as canonical PER or DER, and back' "$text This package has the programs, the documentation and the examples."
describe python3-ruvkhiska python "python3 (>= 3.9), libruvkhiska$major (>= $version)" \
    'XML documents as canonical PER or DER (Python)' "$text This package has the package for Python."
# What the interpreter compiles of the package is made and removed with it.
script python3-ruvkhiska postinst <<'EOF'
[ "$1" != configure ] || ! command -v py3compile > /dev/null || py3compile -p python3-ruvkhiska
EOF
script python3-ruvkhiska prerm <<'EOF'
! command -v py3clean > /dev/null || py3clean -p python3-ruvkhiska
EOF

for it in ruvkhiska "libruvkhiska$major" libruvkhiska-dev python3-ruvkhiska; do
    file=$folder/${it}_${version}_$(architecture "$it").deb
    dpkg-deb --root-owner-group --build "$work/$it" "$file" > "$work/log"
    echo "$file"
done
