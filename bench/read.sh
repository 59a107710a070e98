#!/usr/bin/env bash
# Measures how long the program takes to read documents, beside `xmllint --noout`, in the same run: both get the file by
# its name. bench/measure.sh says what is needed and what the columns are.
#
# The program reads a schema file whole before it says anything else of it, and none of these documents is a schema, so
# `show FILE` reads the document, refuses it, and does no more.
set -eu
cd "$(dirname "$0")/.."
. bench/measure.sh

# An order of 100,000 lines, 4.28 MB.
awk 'BEGIN {
    printf "<order xmlns=\"urn:po\" id=\"7\">"
    for (i = 0; i < 100000; i++) printf "<line><sku>S%d</sku><qty>%d</qty></line>", i, 1 + i % 100
    printf "</order>"
}' > "$work/order"

# 4,194,000 empty elements, 16.8 MB.
awk 'BEGIN { printf "<r>"; for (i = 0; i < 4194000; i++) printf "<a/>"; printf "</r>" }' > "$work/elements"

# One tag with 1,000,000 attributes.
awk 'BEGIN { printf "<r"; for (i = 0; i < 1000000; i++) printf " a%d=\"\"", i; printf "/>" }' > "$work/attributes"

# 1,000,000 namespaces declared on one element.
awk 'BEGIN {
    letters = "abcdefghijklmnopqrstuvwyzABCDEFGHIJKLMNOPQRSTUVWYZ"
    printf "<r"
    for (i = 0; i < 1000000; i++) {
        name = ""; n = i
        for (k = 0; k < 4; k++) { name = name substr(letters, n % 50 + 1, 1); n = int(n / 50) }
        printf " xmlns:%s=\"u\"", name
    }
    printf "/>"
}' > "$work/namespaces"

# 64 levels of which each declares 2,000 prefixes.
awk 'BEGIN {
    for (i = 0; i < 64; i++) { printf "<r"; for (k = 0; k < 2000; k++) printf " xmlns:p%d=\"u%d\"", k, i; printf ">" }
    for (i = 0; i < 64; i++) printf "</r>"
}' > "$work/levels"

# 100,000 prefixes bound on the root, and 400,000 elements that use them.
awk 'BEGIN {
    printf "<r"
    for (i = 0; i < 100000; i++) printf " xmlns:p%d=\"u%d\"", i, i
    printf ">"
    for (i = 0; i < 400000; i++) printf "<p%d:e/>", (i * 7919) % 100000
    printf "</r>"
}' > "$work/prefixes"

# One text of 16 MB that references cut.
awk 'BEGIN { printf "<r>"; for (i = 0; i < 2700000; i++) printf "x&lt;y"; printf "</r>" }' > "$work/references"

ours() { run /dev/null "$program" show "$file"; }
peer() { run /dev/null xmllint --huge --noout "$file"; }

headings
for document in ${DOCUMENTS:-order elements attributes namespaces levels prefixes references}; do
    file=$work/$document
    compare "$document" "$file"
done
