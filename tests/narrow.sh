#!/usr/bin/env bash
# Tries ruvkhiska-narrow: each rule, the command, hostile input, random particles, random sets with documents, damaged files.
#
#     tests/narrow.sh [SETS [DAMAGED]]    needs the program (`make run`), xmllint, and python3-xmlschema; some minutes
#
# SETS random sets of 20 documents (100) and DAMAGED schema files (100) are tried. PROGRAM names another program in place of
# bin/ruvkhiska, and PYTHON the Python that has the module xmlschema. The status is 1 where anything is wrong, and 2 where
# something is missing.
set -u
cd "$(dirname "$0")/.."
export PROGRAM=${PROGRAM:-bin/ruvkhiska}
PROGRAM=$(realpath -m "$PROGRAM")
[ -x "$PROGRAM" ] || { echo "no program at $PROGRAM: make run" >&2; exit 2; }
command -v xmllint > /dev/null || { echo "no xmllint: install libxml2-utils" >&2; exit 2; }
for python in ${PYTHON:-python3 /usr/bin/python3} ''; do
    [ -n "$python" ] || { echo "no Python with the module xmlschema: install python3-xmlschema" >&2; exit 2; }
    "$python" -c 'import xmlschema' 2> /dev/null && break
done
wrong=0
(cd narrow/tests && "$python" -m unittest -q) || wrong=1
"$python" narrow/tests/random_sets.py "${1:-100}" || wrong=1
"$python" narrow/tests/damaged.py "${2:-100}" || wrong=1
exit "$wrong"
