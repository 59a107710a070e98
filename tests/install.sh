#!/usr/bin/env bash
# Installs to folders and from Debian packages, and uses what is installed: the programs, the C library by pkg-config from C and C++,
# the package for Python, the manual pages, and the completions. Then it uninstalls, and nothing may be left. It prints what is wrong,
# and its status is 1 if anything is.
#
#     tests/install.sh          needs the programs and the archive of the C library (`make build`), a C and a C++ compiler,
#                               pkg-config, Python 3, man and `script` of util-linux; two minutes, mostly for the packages
#
# PEOPLE, PROGRAM and LIBRARY name other builds of bin/ruvkhiska, bin/transcode and the archive, and HEAP another kit's heap. ROOT
# names a folder with a clean Debian (`debootstrap --variant=minbase --include=python3 bookworm FOLDER`): the packages are installed,
# run and purged in it, which needs root. Without it dpkg installs them into an empty folder.
set -eu
umask 022
cd "$(dirname "$0")/.."
here=$PWD
version=$(cat install/version)
work=$(mktemp -d)
trap 'rm -rf "$work"' EXIT
PEOPLE=$(realpath -m "${PEOPLE:-bin/ruvkhiska}")
PROGRAM=$(realpath -m "${PROGRAM:-bin/transcode}")
LIBRARIES=$work/libraries
export PEOPLE PROGRAM LIBRARIES
for it in "$PEOPLE" "$PROGRAM"; do
    [ -x "$it" ] || { echo "no program at $it: make build" >&2; exit 2; }
done
mkdir "$LIBRARIES"
install/library.sh "$LIBRARIES"

wrong=0
fail() {
    echo "  wrong: $1"
    wrong=$((wrong + 1))
}

# same WHAT DUE FOUND
same() {
    [ "$2" = "$3" ] || fail "$1: '$3', not '$2'"
}

same 'the latest version of CHANGELOG.md' "$version" "$(sed -n 's/^## \[\([0-9.]*\)\] - .*/\1/p' CHANGELOG.md | head -n 1)"
same 'the kit that --version names' "$(rt version)" "$(sed -n 's/.*\.version("[0-9.]* (proved by \(.*\))").*/\1/p' crates/people_options/src/arguments.rt)"

# A C++ program. It has a function with the name of one of the kit's heap, which the library must not call.
cat > "$work/program.cpp" <<'EOF'
#include <ruvkhiska.h>
#include <cstdio>
#include <cstdlib>
#include <fstream>
#include <iterator>
#include <string>
#include <vector>
extern "C" void *rattle_alloc(std::size_t, std::size_t) { std::abort(); }
static std::vector<std::uint8_t> contents(const char *name) {
    std::ifstream file(name, std::ios::binary);
    return {std::istreambuf_iterator<char>(file), {}};
}
int main(int, char **words) {
    auto schema = contents(words[1]), document = contents(words[2]);
    const std::string name = words[1], space = "urn:po", local = "order";
    auto bytes = [](const std::string &text) { return reinterpret_cast<const std::uint8_t *>(text.data()); };
    ruvkhiska_files files = {};
    ruvkhiska_converter converter = {};
    ruvkhiska_bytes octets = {};
    ruvkhiska_complaint why;
    std::int32_t status = ruvkhiska_add(&files, bytes(name), name.size(), schema.data(), schema.size());
    if (!status) status = ruvkhiska_open(&files, bytes(space), space.size(), bytes(local), local.size(), &converter, &why);
    if (!status) status = ruvkhiska_encode(&converter, RUVKHISKA_ALIGNED, document.data(), document.size(), &octets, &why);
    for (std::size_t i = 0; i < octets.count; i++) std::printf("%02x", octets.data[i]);
    std::printf("\n");
    ruvkhiska_free(&octets);
    ruvkhiska_close(&converter);
    ruvkhiska_drop_files(&files);
    return status;
}
EOF

# The octets of examples/order.xml, as README.md has them.
octets=0000070102413104

# The line of README.md that converts after an installation. It writes order.per.
converts=$(sed -n 's/^    \(ruvkhiska to-per .* -o order.per\)$/\1/p' README.md)
[ -n "$converts" ] || fail 'README.md has no line that converts'

# try_programs PREFIX: the commands of README.md, in the folder of the installed documentation.
try_programs() {
    local octets_file=$work/order.per
    same 'the version of the program' "ruvkhiska $version" "$("$1/bin/ruvkhiska" --version | sed -E 's/ \((not proved|proved by .*)\)$//')"
    cd "$1/share/doc/ruvkhiska"
    same 'to-per' $octets "$("$1/bin/ruvkhiska" to-per examples/order.xsd -i examples/order.xml | od -An -v -tx1 | tr -d ' \n')"
    "$1/bin/ruvkhiska" to-per examples/order.xsd -i examples/order.xml -o "$octets_file" || fail "to-per -o: status $?"
    same 'to-xml' "$(sed -n 's/^    <n1:order /<n1:order /p' README.md)" "$("$1/bin/ruvkhiska" to-xml examples/order.xsd -i "$octets_file" | tail -n 1)"
    same 'transcode' $octets "$("$1/bin/transcode" to-per '{urn:po}order' examples/order.xsd < examples/order.xml | od -An -v -tx1 | tr -d ' \n')"
    PATH=$1/bin:$PATH sh -c "$converts" || fail "$converts"
    cmp order.per "$octets_file" || fail "$converts: other octets"
    rm order.per "$octets_file"
    cd "$here"
}

# try_narrow PREFIX: ruvkhiska-narrow writes and reports what it does in the repository.
try_narrow() {
    local python=
    for it in python3 /usr/bin/python3; do
        if "$it" -c 'import xmlschema' 2> /dev/null; then python=$it; fi
    done
    if [ -z "$python" ]; then echo 'not tried: ruvkhiska-narrow, which needs python3-xmlschema'; return; fi
    "$python" narrow/ruvkhiska-narrow -o "$work/narrow-1" examples/ubl-invoice.xsd > "$work/report" || same 'status of ruvkhiska-narrow' 2 $?
    (cd "$1/share/doc/ruvkhiska" && "$python" "$1/bin/ruvkhiska-narrow" -o "$work/narrow-2" examples/ubl-invoice.xsd) |
        sed 's|/narrow-2:|/narrow-1:|' | cmp - "$work/report" || fail 'ruvkhiska-narrow: another report'
    diff -r "$work/narrow-1" "$work/narrow-2" || fail 'ruvkhiska-narrow: other schemas'
    rm -r "$work/narrow-1" "$work/narrow-2"
}

# try_library PREFIX LIBDIR [SYSROOT]: programs in C and C++ over the shared and the static library.
try_library() {
    local prefix=$1 libdir=$2 flags libs by_name
    export PKG_CONFIG_PATH=$libdir/pkgconfig PKG_CONFIG_SYSROOT_DIR=${3:-} PKG_CONFIG_ALLOW_SYSTEM_CFLAGS=1 PKG_CONFIG_ALLOW_SYSTEM_LIBS=1
    same 'version of pkg-config' "$version" "$(pkg-config --modversion ruvkhiska)"
    same 'version of the header' "$version" "$(sed -n 's/^#define RUVKHISKA_VERSION "\(.*\)"$/\1/p' "$prefix/include/ruvkhiska.h")"
    flags=$(pkg-config --cflags ruvkhiska)
    libs=$(pkg-config --libs ruvkhiska)
    # shellcheck disable=SC2086
    {
        cc -std=c99 -Wall -Wextra -pedantic -Wconversion -Werror $flags examples/messages.c $libs -o "$work/c-shared"
        cc -std=c11 -Wall -Wextra -pedantic -Wconversion -Werror $flags examples/messages.c "$libdir/libruvkhiska.a" -o "$work/c-static"
        c++ -std=c++17 -Wall -Wextra -pedantic -Wconversion -Werror $flags "$work/program.cpp" $libs -o "$work/cpp-shared"
        c++ -std=c++17 -Wall -Wextra -pedantic -Wconversion -Werror $flags "$work/program.cpp" "$libdir/libruvkhiska.a" -o "$work/cpp-static"
        cc -std=c11 -Wall -Wextra -pedantic -Wconversion -Werror -pthread $flags examples/threads.c $libs -o "$work/threads"
        cc -std=c99 -Wall -Wextra -pedantic -Wconversion -Werror $flags examples/records.c $libs -o "$work/records-c"
        c++ -std=c++17 -Wall -Wextra -pedantic -Wconversion -Werror -x c++ $flags examples/records.c -x none $libs -o "$work/records-cpp"
    } || fail 'a program does not compile or link'
    for it in shared static; do
        LD_LIBRARY_PATH=$libdir "$work/c-$it" urn:po order 0 examples/orders.txt examples/order.xsd > "$work/by-$it" || fail "C, $it: status $?"
        same "C++, $it" $octets "$(LD_LIBRARY_PATH=$libdir "$work/cpp-$it" examples/order.xsd examples/order.xml)"
    done
    cmp "$work/by-shared" "$work/by-static" || fail 'the shared and the static library give other lines'
    same 'C: the first message' "$(head -n 1 examples/orders.txt | tr -d '\n' | "$prefix/bin/transcode" to-per '{urn:po}order' examples/order.xsd | od -An -v -tx1 | tr -d ' \n')" "$(head -n 1 "$work/by-shared")"
    same 'C: threads' '2 messages' "$(LD_LIBRARY_PATH=$libdir "$work/threads" urn:po order examples/orders.txt examples/order.xsd | grep -o '[0-9]* messages')"
    for it in c cpp; do
        same "records, $it" 2 "$(printf '\0\0\7\1\2A1\4\0\0\7\1\2A1\4' | LD_LIBRARY_PATH=$libdir "$work/records-$it" urn:po order examples/order.xsd | grep -c '<n1:sku>A1</n1:sku>')"
    done
    # The program needs the library by its soname, and no path is in it.
    by_name=$(objdump -p "$work/c-shared" | awk '$1 == "NEEDED" && $2 ~ /ruvkhiska/ { print $2 } /RPATH|RUNPATH/')
    same 'the name that is linked' "libruvkhiska.so.${version%%.*}" "$by_name"
    if grep -i rattle "$libdir/pkgconfig/ruvkhiska.pc"; then fail 'ruvkhiska.pc names the kit'; fi
    unset PKG_CONFIG_PATH PKG_CONFIG_SYSROOT_DIR PKG_CONFIG_ALLOW_SYSTEM_CFLAGS PKG_CONFIG_ALLOW_SYSTEM_LIBS
}

# try_python PREFIX [LIBRARY]: the package for Python, which finds the library of its installation, or else this one.
try_python() {
    local folder words=(env)
    folder=$(dirname "$(dirname "$(find "$1" -path '*/ruvkhiska/__init__.py')")")
    words+=("PYTHONPATH=$folder" ${2:+"RUVKHISKA_LIBRARY=$2"} python3)
    same 'the package and its version' "$folder/ruvkhiska/__init__.py $version" "$("${words[@]}" -c 'import ruvkhiska; print(ruvkhiska.__file__, ruvkhiska.__version__)')"
    "${words[@]}" -m unittest discover -q python/tests > "$work/tests" 2>&1 || { fail 'the tests of the package'; cat "$work/tests"; }
    "${words[@]}" examples/messages.py urn:po order 0 examples/orders.txt examples/order.xsd > "$work/by-python" || fail "Python: status $?"
    cmp "$work/by-shared" "$work/by-python" || fail 'C and Python write different lines'
    "${words[@]}" -m pydoc ruvkhiska > "$work/page"
    grep -q 'prepare(self, root' "$work/page" || fail 'help(ruvkhiska)'
}

# by_key WORDS: what bash makes of typed words, with a tab.
by_key() {
    # shellcheck disable=SC2016
    printf '%s\n' "source $work/completions/ruvkhiska" 'ruvkhiska() { printf "[%s]" "$@"; }' "$1" exit |
        (cd examples && TERM=dumb INPUTRC=/dev/null timeout 20 script -qec 'bash --norc --noprofile -i' /dev/null) | grep -o '^\[.*\]' | head -n 1
}

# try_pages PREFIX ZSHDIR: the manual pages and the completions.
try_pages() {
    local page
    for it in 1 3; do
        page=$(find "$1/share/man/man$it" -name 'ruvkhiska*')
        same "warnings of ruvkhiska($it)" '' "$(man --warnings -l "$page" 2>&1 > /dev/null)"
        MANWIDTH=100 man -l "$page" 2> /dev/null | col -b > "$work/page" || fail "man -l $page"
        grep -q '^NAME$' "$work/page" || fail "ruvkhiska($it) has no name"
    done
    sed -nE 's/^(int32_t|uint32_t|void|static inline int32_t) (ruvkhiska_[a-z_]+\().*/\2/p' include/ruvkhiska.h | sort -u | while read -r it; do
        grep -F " $it" "$work/page" > /dev/null || echo "$it"
    done > "$work/lacking"
    same 'calls that ruvkhiska(3) lacks' '' "$(cat "$work/lacking")"
    rm -rf "$work/completions"
    mkdir "$work/completions"
    cp "$1/share/bash-completion/completions/ruvkhiska" "$2/_ruvkhiska" "$1/share/fish/vendor_completions.d/ruvkhiska.fish" "$work/completions"
    PEOPLE=$1/bin/ruvkhiska tests/completions.py "$work/completions" || fail 'completions'
    same 'a tab after a command' '[to-per]' "$(by_key $'ruvkhiska to-p\t')"
    same 'a tab after a syntax' '[to-per][-t][uper]' "$(by_key $'ruvkhiska to-per -t u\t')"
    same 'a tab after an option' '[show][--plain]' "$(by_key $'ruvkhiska show --pl\t')"
    same 'a tab after a file' '[show][river.xsd]' "$(by_key $'ruvkhiska show river.xs\t')"
    same 'a tab after a file to read' '[check][river.xsd][-i][river.xml]' "$(by_key $'ruvkhiska check river.xsd -i river.xm\t')"
}

echo 'to a folder'
prefix=$work/prefix
PREFIX=$prefix install/install.sh install > /dev/null
cmp "$PEOPLE" "$prefix/bin/ruvkhiska" || fail 'bin/ruvkhiska is not the program that was built'
cmp "$PROGRAM" "$prefix/bin/transcode" || fail 'bin/transcode is not the program that was built'
try_programs "$prefix"
try_narrow "$prefix"
try_library "$prefix" "$prefix/lib"
try_python "$prefix"
try_pages "$prefix" "$prefix/share/zsh/site-functions"
(cd "$prefix" && find . ! -type d ! -name '*.pyc' | sort) > "$work/files"

# Twice is once, and what others installed stays.
PREFIX=$prefix install/install.sh install > /dev/null
(cd "$prefix" && find . ! -type d ! -name '*.pyc' | sort) | cmp - "$work/files" || fail 'installed twice, there are other files'
touch "$prefix/lib/other"
PREFIX=$prefix install/install.sh uninstall > /dev/null
same 'left of an installation with a file of others' "$prefix/lib/other" "$(find "$prefix" ! -type d)"
rm -r "$prefix"
PREFIX=$prefix install/install.sh install > /dev/null
PREFIX=$prefix install/install.sh uninstall > /dev/null
[ ! -e "$prefix" ] || fail "left of an installation: $(find "$prefix")"
status=0
PREFIX=$prefix install/install.sh uninstall > /dev/null 2>&1 || status=$?
same 'status where nothing is installed' 2 "$status"

echo 'to DESTDIR'
mkdir "$work/stage"
DESTDIR=$work/stage PREFIX=/usr/local install/install.sh install > /dev/null
(cd "$work/stage/usr/local" && find . ! -type d | sort) | cmp - "$work/files" || fail 'with DESTDIR there are other files'
if grep -rlF "$work" "$work/stage"; then fail 'files with DESTDIR in them'; fi
try_library "$work/stage/usr/local" "$work/stage/usr/local/lib" "$work/stage"
DESTDIR=$work/stage PREFIX=/usr/local install/install.sh uninstall > /dev/null
same 'left in DESTDIR' "$work/stage" "$(find "$work/stage")"

# rest_of FOLDER: the files and links in it, without dpkg's own state, caches and logs.
rest_of() {
    (cd "$1" && find . -xdev ! -type d ! -path './var/lib/dpkg/*' ! -path './var/log/*' ! -path './var/cache/*' | sort)
}

# by_dpkg WORD..: dpkg over the root; in an empty folder there is no libc6.
by_dpkg() {
    # shellcheck disable=SC2086
    dpkg --root="$root" $force "$@" > "$work/log" 2>&1 || { fail "dpkg $1"; cat "$work/log"; }
}

# try_root: the programs run in the root, and find the library there.
try_root() {
    cp "$work/c-shared" "$root/usr/bin/ruvkhiska-messages"
    chroot "$root" sh -c 'cd /usr/share/doc/ruvkhiska && ruvkhiska-messages urn:po order 0 examples/orders.txt examples/order.xsd' > "$work/by-root" ||
        fail 'C in the root'
    cmp "$work/by-shared" "$work/by-root" || fail 'C in the root: other lines'
    rm "$root/usr/bin/ruvkhiska-messages"
    same 'Python in the root' $octets "$(chroot "$root" python3 -c "
import ruvkhiska
path = '/usr/share/doc/ruvkhiska/examples/order'
with open(path + '.xml', 'rb') as file:
    print(ruvkhiska.Schemas.from_files(path + '.xsd').prepare().encode(file.read()).hex())")"
    chroot "$root" sh -c "cd /usr/share/doc/ruvkhiska && $converts" || fail "$converts, in the root"
    same "$converts, in the root" $octets "$(od -An -v -tx1 "$root/usr/share/doc/ruvkhiska/order.per" | tr -d ' \n')"
    rm "$root/usr/share/doc/ruvkhiska/order.per"
}

if [ "$(id -u)" != 0 ] || ! command -v dpkg-deb > /dev/null; then
    echo 'not tried: the packages, which need root and dpkg'
else
    echo 'from packages'
    mkdir "$work/debs"
    DPKG_DEB_COMPRESSOR_LEVEL=1 install/deb.sh "$work/debs" > /dev/null
    if command -v lintian > /dev/null; then
        lintian --allow-root --fail-on error "$work"/debs/*.deb || fail 'lintian has errors'
    else
        echo 'not tried: lintian, which is not installed'
    fi
    root=${ROOT:-} force=
    if [ -z "$root" ]; then
        root=$work/root force='--force-depends --force-script-chrootless'
        mkdir -p "$root/var/lib/dpkg/info" "$root/var/lib/dpkg/updates"
        touch "$root/var/lib/dpkg/status"
    fi
    rest_of "$root" > "$work/before"
    by_dpkg -i "$work"/debs/*.deb
    try_programs "$root/usr"
    try_narrow "$root/usr"
    try_library "$root/usr" "$root/usr/lib/x86_64-linux-gnu" "$root"
    PYTHONDONTWRITEBYTECODE=1 try_python "$root/usr" "$root/usr/lib/x86_64-linux-gnu/libruvkhiska.so.${version%%.*}"
    try_pages "$root/usr" "$root/usr/share/zsh/vendor-completions"
    if [ -n "${ROOT:-}" ]; then try_root; else echo 'not tried: a clean Debian, which ROOT would name'; fi
    by_dpkg --purge python3-ruvkhiska ruvkhiska libruvkhiska-dev "libruvkhiska${version%%.*}"
    rest_of "$root" | diff "$work/before" - || fail 'files are left of packages'
fi

if [ "$wrong" = 0 ]; then echo 'install: all as required'; else echo "$wrong wrong"; exit 1; fi
