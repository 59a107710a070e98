#!/usr/bin/env bash
# Installs the programs, the C library, the package for Python, the manual pages, the completions for shells, and the documentation;
# or removes what it installed. `make install` and `make uninstall` call it.
#
#     install/install.sh install        writes share/doc/ruvkhiska/installed, a list of the files and folders that it made
#     install/install.sh uninstall      removes what that list has
#
# PREFIX is where: /usr/local if it isn't given. DESTDIR precedes each path, and is in no file. LIBDIR, PYTHONDIR and ZSHDIR name
# other folders for the library, for Python and for zsh. PYTHON names another interpreter than python3, in whose folder below PREFIX
# the package is installed. PEOPLE and PROGRAM name other programs than bin/ruvkhiska and bin/transcode, and LIBRARIES another folder
# than bin with the result of install/library.sh.
set -eu
umask 022
export LC_ALL=C
cd "$(dirname "$0")/.."
prefix=${PREFIX:-/usr/local}
root=${DESTDIR:-}
libdir=${LIBDIR:-$prefix/lib}
zshdir=${ZSHDIR:-$prefix/share/zsh/site-functions}
people=${PEOPLE:-bin/ruvkhiska}
program=${PROGRAM:-bin/transcode}
libraries=${LIBRARIES:-bin}
doc=$prefix/share/doc/ruvkhiska
list=$doc/installed
version=$(cat install/version)
case $prefix$libdir$zshdir in *[[:space:]]*) echo 'a path has spaces, which pkg-config would split' >&2; exit 2 ;; esac
case $prefix in /*) ;; *) echo "PREFIX isn't an absolute path: $prefix" >&2; exit 2 ;; esac

# note PATH: adds a path to the list.
note() {
    echo "$1" >> "$work/list"
}

# folder PATH: makes a folder and those above it, and notes each that wasn't there.
folder() {
    [ -d "$root$1" ] && return
    [ "$1" = / ] || folder "$(dirname "$1")"
    mkdir "$root$1"
    note "$1"
}

# file MODE SOURCE PATH: installs a file.
file() {
    folder "$(dirname "$3")"
    install -m "$1" "$2" "$root$3"
    note "$3"
}

# files FOLDER: installs the files of a folder of the repository as documentation.
files() {
    local it
    if ! git ls-files "$1" 2> /dev/null > "$work/names" || [ ! -s "$work/names" ]; then find "$1" -type f > "$work/names"; fi
    while IFS= read -r it; do
        if [ -x "$it" ]; then file 755 "$it" "$doc/$it"; else file 644 "$it" "$doc/$it"; fi
    done < "$work/names"
}

# link TARGET PATH
link() {
    ln -sf "$1" "$root$2"
    note "$2"
}

# write: writes the files that no build makes.
write() {
    install/completions.py "$work"
    install/manual.py > "$work/ruvkhiska.3"
    "$people" manual > "$work/ruvkhiska.1"
    cat > "$work/ruvkhiska.pc" <<EOF
prefix=$prefix
libdir=$libdir
includedir=\${prefix}/include

Name: ruvkhiska
Description: XML documents of a schema as canonical PER or DER, and back
Version: $version
Cflags: -I\${includedir}
Libs: -L\${libdir} -lruvkhiska
EOF
}

# packages: where the interpreter looks for packages: in a folder of its own below PREFIX/lib, if it has one there.
packages() {
    "${PYTHON:-python3}" - "$prefix/lib" <<'EOF'
import site, sys
lib, version = sys.argv[1], "python%d.%d" % sys.version_info[:2]
below = [it for it in site.getsitepackages() if it.startswith(lib + "/")]
print([*below, f"{lib}/{version}/site-packages"][0])
EOF
}

place() {
    local it pythondir
    pythondir=${PYTHONDIR:-$(packages)}
    file 755 "$people" "$prefix/bin/ruvkhiska"
    file 755 "$program" "$prefix/bin/transcode"
    file 755 narrow/ruvkhiska-narrow "$prefix/bin/ruvkhiska-narrow"
    for it in narrow/narrowing/*.py; do file 644 "$it" "$prefix/share/ruvkhiska/narrowing/${it##*/}"; done
    file 644 include/ruvkhiska.h "$prefix/include/ruvkhiska.h"
    file 644 "$libraries/libruvkhiska.a" "$libdir/libruvkhiska.a"
    file 644 "$libraries/libruvkhiska.so.$version" "$libdir/libruvkhiska.so.$version"
    link "libruvkhiska.so.$version" "$libdir/libruvkhiska.so.${version%%.*}"
    link "libruvkhiska.so.${version%%.*}" "$libdir/libruvkhiska.so"
    file 644 "$work/ruvkhiska.pc" "$libdir/pkgconfig/ruvkhiska.pc"
    for it in python/ruvkhiska/*.py python/ruvkhiska/py.typed; do file 644 "$it" "$pythondir/ruvkhiska/${it##*/}"; done
    for it in 1 3; do file 644 "$work/ruvkhiska.$it" "$prefix/share/man/man$it/ruvkhiska.$it"; done
    file 644 "$work/ruvkhiska" "$prefix/share/bash-completion/completions/ruvkhiska"
    file 644 "$work/_ruvkhiska" "$zshdir/_ruvkhiska"
    file 644 "$work/ruvkhiska.fish" "$prefix/share/fish/vendor_completions.d/ruvkhiska.fish"
    for it in README.md CHANGELOG.md; do file 644 "$it" "$doc/$it"; done
    files docs
    files examples
}

# compiled PATH: removes what interpreters compiled of a file of Python.
compiled() {
    local cache
    cache=$(dirname "$1")/__pycache__
    [ -d "$cache" ] || return 0
    rm -f "$cache/$(basename "$1" .py)".*.pyc
    rmdir --ignore-fail-on-non-empty "$cache"
}

case ${1:-} in
    install)
        for it in "$people" "$program" "$libraries/libruvkhiska.a" "$libraries/libruvkhiska.so.$version"; do
            [ -f "$it" ] || { echo "not built: $it" >&2; exit 2; }
        done
        work=$(mktemp -d)
        trap 'rm -rf "$work"' EXIT
        # The folders that an earlier installation made stay in the list.
        if [ -f "$root$list" ]; then cp "$root$list" "$work/list"; fi
        write
        place
        note "$list"
        sort -u "$work/list" > "$work/sorted"
        install -m 644 "$work/sorted" "$root$list"
        echo "installed to $root$prefix"
        ;;
    uninstall)
        [ -f "$root$list" ] || { echo "nothing is installed: no list at $root$list" >&2; exit 2; }
        names=$(sort -r "$root$list")
        # In reverse order a folder follows what it contains. One that has other files remains.
        while IFS= read -r it; do
            if [ -d "$root$it" ] && [ ! -L "$root$it" ]; then
                rmdir --ignore-fail-on-non-empty "$root$it"
            else
                rm -f "$root$it"
                case $it in *.py) compiled "$root$it" ;; esac
            fi
        done <<< "$names"
        echo "removed from $root$prefix"
        ;;
    *)
        echo 'install/install.sh install|uninstall' >&2
        exit 2
        ;;
esac
