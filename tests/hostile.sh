#!/usr/bin/env bash
# Inputs that hang or crash other tools. Each case runs at a quarter of its size and at its whole size, three times each,
# and is wrong where
#
# - the status or the complaint isn't the one that is due, or a run takes more than 60 seconds;
# - the whole takes more than 8 times the processor time of the quarter, of both the least, and of the quarter at least
#   0.05 s: so time grows with the size alone;
# - the memory is over the bound that the case states, in bytes for each byte of schemas and input together, or for each
#   of what its schema multiplies, and 16 MB for the program itself;
# - where a case is held beside an order of 100,000 lines, a byte of it costs more than so many times what a byte of that does.
# - where a case is held beside xmllint, it takes more than so much of the processor time of `xmllint --noout --schema` over the
#   same files.
#
# It prints a line for each: the status, the processor seconds and the MB of the whole, the bytes of input, the bytes of
# memory for each of these, the ratio of times, and ok or what is wrong. Its own status is 1 where any is wrong.
#
#     tests/hostile.sh [CASE..]      needs the program (`make run`), awk, GNU time and xmllint; some minutes, 4 GB of memory
#
# PROGRAM names another program.
set -eu
shopt -s nullglob
cd "$(dirname "$0")/.."
program=$(realpath -m "${PROGRAM:-bin/transcode}")
[ -x "$program" ] || { echo "no program at $program: make run" >&2; exit 2; }
features=$(realpath examples/features.xsd)
order=$(realpath examples/order.xsd)
wanted=" $* "
work=$(mktemp -d)
trap 'rm -rf "$work"' EXIT
schema=$work/schema.xsd
input=$work/input
head='<xs:schema xmlns:xs="http://www.w3.org/2001/XMLSchema">'
end='</xs:schema>'
own_memory=16000000

# What the makers of texts use: `repeat N FORMAT` is the format N times, with the numbers from 0 in place of %d.
repeat() {
    awk -v count="$1" -v format="$2" 'BEGIN { for (i = 0; i < count; i++) printf format, i }' < /dev/null
}

# So many times the same byte, also a zero.
bytes() {
    head -c "$1" /dev/zero | tr '\0' "$2"
}

# One run over the input: its status, its processor seconds and its kilobytes.
run() {
    status=0
    (
        ulimit -c 0
        ulimit -v 8000000
        exec /usr/bin/time -f '%U %S %M' -o "$work/measured" timeout 60 "$program" "$@"
    ) < "$input" > "$work/output" 2> "$work/complaint" || status=$?
    read -r seconds kilobytes < <(tail -n 1 "$work/measured" | awk '{ print $1 + $2, $3 }')
}

# Three runs: the least seconds and the most kilobytes. A status or a complaint that isn't due is noted.
runs() {
    local least=
    most=0
    for _ in 1 2 3; do
        run "$@"
        least=$(awk -v new="$seconds" -v old="$least" 'BEGIN { print (old == "" || new < old) ? new : old }')
        [ "$kilobytes" -gt "$most" ] && most=$kilobytes
        # The complaint is a pattern.
        # shellcheck disable=SC2053
        if [ "$status" != "$due_status" ] || [[ $(head -c 200 "$work/complaint") != $due_complaint ]]; then
            verdict="wrong: status $status, due $due_status: $(head -c 200 "$work/complaint")"
        fi
    done
    seconds=$least
}

wrong=0
format='%-20s %6s %8s %7s %10s %8s %6s  %s\n'
# shellcheck disable=SC2059
printf "$format" case status seconds MB bytes 'mem/byte' ratio ''

# Whether a case is among those that were asked for.
wants() {
    case $wanted in
        '  ' | *" $1 "*) return 0 ;;
        *) return 1 ;;
    esac
}

# A case: its name, for which there is a maker of the schema and the input; its whole size; the most bytes of memory, for
# each byte or for each of so many things at a size of 1; the status and the complaint that are due; the words.
hostile() {
    local name=$1 whole=$2 bound=$3 things=$4
    due_status=$5
    due_complaint=$6
    shift 6
    wants "$name" || return 0
    verdict=ok
    : > "$input"
    "make_$name" $((whole / 4))
    runs "$@"
    local quarter=$seconds
    "make_$name" "$whole"
    runs "$@"
    local total figures
    total=$(cat "$input" "$work"/*.xsd | wc -c)
    figures=$(awk -v quarter="$quarter" -v whole="$seconds" -v kilobytes="$most" -v total="$total" -v bound="$bound" \
        -v things=$((things * whole)) -v own="$own_memory" 'BEGIN {
        memory = kilobytes * 1024
        ratio = whole / (quarter > 0.05 ? quarter : 0.05)
        most = own + bound * (things > 0 ? things : total)
        printf "%.2f %.1f %d %.1f %.1f ", whole, memory / 1e6, total, memory / total, ratio
        if (memory > most) printf "wrong: memory over %.1f MB", most / 1e6
        else if (ratio > 8) printf "wrong: time"
        else printf "ok"
    }')
    local -a columns
    read -r -a columns <<< "$figures"
    [ "$verdict" = ok ] && verdict=${columns[*]:5}
    [ "$verdict" = ok ] || wrong=$((wrong + 1))
    # shellcheck disable=SC2059
    printf "$format" "$name" "$status" "${columns[@]:0:5}" "$verdict"
    rm -f "$work"/*.xsd
}

# Three runs of a case that is due to be taken, at this size.
runs_taken() {
    local name=$1 size=$2
    shift 2
    : > "$input"
    "make_$name" "$size"
    runs "$@"
}

# The line of a case that is held beside something else, of which it may take so many times.
line_beside() {
    local name=$1 word=$2 figure=$3 times=$4 what=$5
    if [ "$verdict" = ok ] && awk -v figure="$figure" -v times="$times" 'BEGIN { exit !(figure > times) }'; then
        verdict="wrong: over $times times"
    fi
    [ "$verdict" = ok ] || wrong=$((wrong + 1))
    printf '%-20s %s, %s times what %s: %s\n' "$name" "$word" "$figure" "$what" "$verdict"
    rm -f "$work"/*.xsd
}

# A case of which each byte costs at most so many times what a byte of an order of 100,000 lines costs, which most documents
# cost: its name and its size, how many times, and the words of both. Each is run three times here, one after the other.
beside() {
    local name=$1 size=$2 times=$3 word=$4 root=$5
    wants "$name" || return 0
    due_status=0
    due_complaint=
    verdict=ok
    {
        printf '<order xmlns="urn:po" id="7">'
        repeat 100000 '<line><sku>S%d</sku><qty>7</qty></line>'
        printf '</order>'
    } > "$input"
    runs "$word" '{urn:po}order' "$order"
    local order_seconds=$seconds order_bytes
    order_bytes=$(cat "$input" "$order" | wc -c)
    runs_taken "$name" "$size" "$word" "$root" "$schema"
    local total figure
    total=$(cat "$input" "$work"/*.xsd | wc -c)
    figure=$(awk -v a="$seconds" -v n="$total" -v b="$order_seconds" -v m="$order_bytes" 'BEGIN { printf "%.1f", a / n / (b / m) }')
    line_beside "$name" "$word" "$figure" "$times" 'the order costs for each byte'
}

# The same beside the processor time that xmllint takes to check the document against the schema.
beside_xmllint() {
    local name=$1 size=$2 times=$3 word=$4 root=$5
    wants "$name" || return 0
    due_status=0
    due_complaint=
    verdict=ok
    runs_taken "$name" "$size" "$word" "$root" "$schema"
    local peer figure
    peer=$(for _ in 1 2 3; do
        /usr/bin/time -f '%U %S' xmllint --huge --noout --schema "$schema" "$input" 2>&1 > /dev/null | tail -n 1
    done | awk 'NR == 1 || $1 + $2 < least { least = $1 + $2 } END { print least }')
    figure=$(awk -v a="$seconds" -v b="$peer" 'BEGIN { printf "%.2f", a / b }')
    line_beside "$name" "$word" "$figure" "$times" 'xmllint --schema takes'
}

# The head of a schema, and its root r: any number of elements of a name and a type.
root_of_many() {
    printf '%s<xs:element name="r"><xs:complexType><xs:sequence>' "$head"
    printf '<xs:element name="%s" type="%s" minOccurs="0" maxOccurs="unbounded"/>' "$1" "$2"
    printf '</xs:sequence></xs:complexType></xs:element>'
}

# ---- Documents

# The schema of the documents that have no schema of their own has an empty element e, a text s, a number n, an r of any
# number of e, and a z that may have a z.

# One tag of so many attributes.
make_attributes() { { printf '<e'; repeat "$1" ' a%d=""'; printf '/>'; } > "$input"; }
hostile attributes 1000000 30 0 8 'input, byte 0: invalid: UnknownAttribute' check e "$features"

# The same, and the last as the first.
make_same_attribute() { { printf '<e'; repeat "$1" ' a%d=""'; printf ' a0=""/>'; } > "$input"; }
hostile same_attribute 1000000 30 0 7 'input, byte 0: syntax: DuplicateAttribute' check e "$features"

# One tag that declares so many namespaces.
make_declarations() {
    awk -v count="$1" 'BEGIN {
        letters = "abcdefghijklmnopqrstuvwyzABCDEFGHIJKLMNOPQRSTUVWYZ"
        printf "<e"
        for (i = 0; i < count; i++) {
            name = ""
            for (n = i + 125000; n > 0; n = int(n / 50)) name = name substr(letters, n % 50 + 1, 1)
            printf " xmlns:%s=\"u\"", name
        }
        printf "/>"
    }' < /dev/null > "$input"
}
hostile declarations 1000000 30 0 0 '' check e "$features"

# 64 levels, each of which declares so many prefixes.
make_levels() {
    awk -v count="$1" 'BEGIN {
        for (i = 0; i < 64; i++) {
            printf "<z"
            for (k = 0; k < count; k++) printf " xmlns:p%d=\"u%d\"", k, i
            printf ">"
        }
        for (i = 0; i < 64; i++) printf "</z>"
    }' < /dev/null > "$input"
}
hostile levels 2000 30 0 0 '' check z "$features"

# So many prefixes, and four times as many elements that use them, in a file that is no schema.
make_prefixes() {
    awk -v count="$1" 'BEGIN {
        printf "<r"
        for (i = 0; i < count; i++) printf " xmlns:p%d=\"u%d\"", i, i
        printf ">"
        for (i = 0; i < 4 * count; i++) printf "<p%d:e/>", (i * 7919) % count
        printf "</r>"
    }' < /dev/null > "$schema"
}
hostile prefixes 100000 30 0 4 'file 1, byte 0: schema: NotASchema' show "$schema"

# One text of 16 MB of references; one reference of 16 MB of digits, and of more than any character has.
make_references() { { printf '<s>'; repeat "$1" '&#65;'; printf '</s>'; } > "$input"; }
hostile references 3355000 8 0 0 '' to-per s "$features"
make_zeros() { { printf '<s>&#'; bytes "$1" 0; printf '65;</s>'; } > "$input"; }
hostile zeros 16700000 8 0 0 '' check s "$features"
make_nines() { { printf '<s>&#'; bytes "$1" 9; printf ';</s>'; } > "$input"; }
hostile nines 16700000 8 0 7 'input, byte 3: syntax: BadReference' check s "$features"

# A text cut by comments; one of brackets; a CDATA section of brackets.
make_comments() { { printf '<s>'; repeat "$1" 'a<!---->'; printf '</s>'; } > "$input"; }
hostile comments 2000000 8 0 0 '' to-per s "$features"
make_brackets() { { printf '<s>'; bytes "$1" ']'; printf '</s>'; } > "$input"; }
hostile brackets 16700000 8 0 0 '' check s "$features"
make_section() { { printf '<s><![CDATA['; bytes "$1" ']'; printf ']]></s>'; } > "$input"; }
hostile section 16700000 8 0 0 '' check s "$features"

# A tag that doesn't end, of ampersands; one that ends; nothing but the signs that begin a piece.
make_endless() { { printf '<s a="'; bytes "$1" '&'; } > "$input"; }
hostile endless 16700000 8 0 7 'input, byte 0: syntax: NoPiece' check s "$features"
make_ampersands() { { printf '<s a="'; bytes "$1" '&'; printf '"/>'; } > "$input"; }
hostile ampersands 16700000 8 0 7 'input, byte 0: syntax: BadReference' check s "$features"
make_signs() { bytes "$1" '<' > "$input"; }
hostile signs 16700000 8 0 7 'input, byte 0: syntax: NoPiece' check s "$features"

# Tags that are opened and never closed; one name of 16 MB.
make_opened() { repeat "$1" '<z>' > "$input"; }
hostile opened 5590000 8 0 7 'input, byte 192: syntax: TooDeep' check z "$features"
make_name() { { printf '<'; bytes "$1" a; printf '/>'; } > "$input"; }
hostile name 16700000 8 0 7 'input, byte 0: syntax: LongName' check s "$features"

# A million empty elements; as many as 16 MB hold, which are valid but have too many nodes for an encoding.
make_elements() { { printf '<r>'; repeat "$1" '<e/>'; printf '</r>'; } > "$input"; }
hostile elements 1000000 80 0 0 '' to-per r "$features"
make_most_elements() { make_elements "$1"; }
hostile most_elements 4194300 40 0 0 '' check r "$features"
make_too_many() { make_elements "$1"; }
hostile too_many 4194300 80 0 12 'value of * nodes: too many' to-per r "$features"

# Elements each of which has 490 lists of child elements, of which none stands: 491 nodes of a value for each 4 bytes.
make_absent_lists() {
    {
        printf '%s<xs:element name="r"><xs:complexType><xs:sequence>' "$head"
        printf '<xs:element name="e" type="E" minOccurs="0" maxOccurs="unbounded"/>'
        printf '</xs:sequence></xs:complexType></xs:element><xs:complexType name="E"><xs:sequence>'
        repeat 490 '<xs:element name="a%d" type="xs:int" minOccurs="0" maxOccurs="unbounded"/>'
        printf '</xs:sequence></xs:complexType>%s' "$end"
    } > "$schema"
    make_elements "$1"
}
hostile absent_lists 200000 600 1 12 'value of * nodes: too many' to-per r "$schema"

# Child elements each of which is the last of 9,800 names, which stand in 20 choices in a repeated choice.
make_chosen() {
    {
        printf '%s<xs:complexType name="E"/><xs:element name="r"><xs:complexType>' "$head"
        printf '<xs:choice minOccurs="0" maxOccurs="unbounded">'
        awk 'BEGIN {
            for (i = 0; i < 9800; i++) {
                if (i % 490 == 0) printf "%s<xs:choice>", (i > 0) ? "</xs:choice>" : ""
                printf "<xs:element name=\"a%d\" type=\"E\"/>", i
            }
            printf "</xs:choice>"
        }'
        printf '</xs:choice></xs:complexType></xs:element>%s' "$end"
    } > "$schema"
    { printf '<r>'; repeat "$1" '<a9799/>'; printf '</r>'; } > "$input"
}
hostile chosen 300000 60 0 0 '' to-per r "$schema"

# A number of 16 MB of digits, in bounds and too wide.
make_number() { { printf '<n>'; bytes "$1" 0; printf '7</n>'; } > "$input"; }
hostile number 16700000 8 0 0 '' to-per n "$features"
make_wide() { { printf '<n>'; bytes "$1" 9; printf '</n>'; } > "$input"; }
hostile wide 16700000 8 0 8 'input, byte 0: invalid: TooWide' to-per n "$features"

# A list of so many items.
make_items() {
    printf '%s<xs:simpleType name="L"><xs:list itemType="xs:token"/></xs:simpleType><xs:element name="l" type="L"/>%s' \
        "$head" "$end" > "$schema"
    { printf '<l>'; repeat "$1" '%d '; printf '</l>'; } > "$input"
}
hostile items 1000000 80 0 0 '' to-per l "$schema"

# A list of as many items as 16 MB hold, which are too many for a value: they are counted, and no list is made of them.
make_many_items() {
    make_items 0
    { printf '<l>'; repeat "$1" '1 '; printf '</l>'; } > "$input"
}
hostile many_items 8000000 8 0 12 'value of * nodes: too many' to-per l "$schema"
make_many_judged() { make_many_items "$1"; }
hostile many_judged 8000000 8 0 0 '' check l "$schema"

# A list whose items are of the last of 1,000 members, each of which reads each item; elements of 400 attributes that may
# stand, of which none does.
make_members_read() {
    {
        printf '%s<xs:simpleType name="U"><xs:union memberTypes="' "$head"
        repeat 999 'xs:int '
        printf 'xs:token"/></xs:simpleType><xs:simpleType name="L"><xs:list itemType="U"/></xs:simpleType>'
        printf '<xs:element name="l" type="L"/>%s' "$end"
    } > "$schema"
    { printf '<l>'; repeat "$1" 'x%d '; printf '</l>'; } > "$input"
}
hostile members_read 20000 600 0 0 '' to-per l "$schema"
make_flags() {
    {
        root_of_many a A
        printf '<xs:complexType name="A">'
        repeat 400 '<xs:attribute name="a%d" type="xs:int"/>'
        printf '</xs:complexType>%s' "$end"
    } > "$schema"
    { printf '<r>'; repeat "$1" '<a/>'; printf '</r>'; } > "$input"
}
hostile flags 200000 800 1 0 '' to-per r "$schema"

# Elements of so many attributes, all required, in a namespace of 1,023 bytes, in the order opposite to that of their
# names: four times as many attributes of four times as many uses take four times as long, and not sixteen times.
long_space=$(bytes 1023 u)
make_uses() {
    awk -v count="$1" -v space="$long_space" -v head="$head" -v schema="$schema" -v input="$input" 'BEGIN {
        printf "%s", substr(head, 1, length(head) - 1) > schema
        printf " targetNamespace=\"%s\" xmlns:p=\"%s\" attributeFormDefault=\"qualified\">", space, space > schema
        printf "<xs:element name=\"r\"><xs:complexType><xs:sequence>" > schema
        printf "<xs:element name=\"a\" type=\"p:A\" minOccurs=\"0\" maxOccurs=\"unbounded\"/>" > schema
        printf "</xs:sequence></xs:complexType></xs:element><xs:complexType name=\"A\">" > schema
        for (i = 0; i < count; i++) {
            printf "<xs:attribute name=\"a%d\" type=\"xs:string\" use=\"required\"/>", i > schema
            tag = " p:a" i "=\"\"" tag
        }
        printf "</xs:complexType></xs:schema>" > schema
        printf "<p:r xmlns:p=\"%s\">", space > input
        for (i = 0; i < 1000; i++) printf "<a%s/>", tag > input
        printf "</p:r>" > input
    }' < /dev/null
}
hostile uses 400 60 0 0 '' check "{$long_space}r" "$schema"
make_uses_sent() { make_uses "$1"; }
hostile uses_sent 400 60 0 0 '' to-per "{$long_space}r" "$schema"
beside_xmllint uses 400 0.14 check "{$long_space}r"
beside_xmllint uses_sent 400 0.2 to-per "{$long_space}r"

# A text of so many items before 50 that are spelled anew one after another, each by another member of a union of 50
# lists: each member reads all items again in each form that the text takes.
make_spelled_anew() {
    awk -v count="$1" -v head="$head" -v end="$end" -v schema="$schema" -v input="$input" 'BEGIN {
        printf "%s", head > schema
        for (t = 0; t < 50; t++) {
            printf "<xs:simpleType name=\"L%d\"><xs:list><xs:simpleType><xs:union><xs:simpleType>", t > schema
            printf "<xs:restriction base=\"xs:int\"><xs:enumeration value=\"%d\"/></xs:restriction>", t > schema
            printf "</xs:simpleType><xs:simpleType><xs:restriction base=\"xs:token\"><xs:enumeration value=\"x\"/>" > schema
            for (i = 0; i < 50; i++) if (i != t) printf "<xs:enumeration value=\"%s%d\"/>", (i > t) ? "0" : "", i > schema
            printf "</xs:restriction></xs:simpleType></xs:union></xs:simpleType></xs:list></xs:simpleType>" > schema
        }
        printf "<xs:simpleType name=\"U\"><xs:union memberTypes=\"" > schema
        for (t = 49; t >= 0; t--) printf "L%d ", t > schema
        printf "\"/></xs:simpleType><xs:element name=\"u\" type=\"U\"/>%s", end > schema
        printf "<u>" > input
        for (i = 0; i < count; i++) printf "x " > input
        for (i = 0; i < 50; i++) printf "0%d ", i > input
        printf "</u>" > input
    }' < /dev/null
}
hostile spelled_anew 4000 600 0 0 '' check u "$schema"

# Elements whose content is a sequence of 20 choices of 490 names, of which the last may be absent, so that each choice may
# be empty, as all but one are; occurrences of 14 choices of 490 names in one another, of which none stands.
make_filled() {
    {
        root_of_many e F
        printf '<xs:complexType name="E"/><xs:complexType name="F"><xs:sequence>'
        awk 'BEGIN {
            for (i = 0; i < 9800; i++) {
                if (i % 490 == 0) printf "%s<xs:choice>", (i > 0) ? "</xs:choice>" : ""
                printf "<xs:element name=\"a%d\" type=\"E\"%s/>", i, (i % 490 == 489) ? " minOccurs=\"0\"" : ""
            }
            printf "</xs:choice>"
        }'
        printf '</xs:sequence></xs:complexType>%s' "$end"
    } > "$schema"
    { printf '<r>'; repeat "$1" '<e><a9799/></e>'; printf '</r>'; } > "$input"
}
hostile filled 24000 200 0 0 '' to-per r "$schema"
make_empty_choices() {
    {
        root_of_many e F
        printf '<xs:complexType name="E"/><xs:complexType name="F">'
        awk 'BEGIN {
            for (i = 0; i < 14; i++) {
                printf "<xs:choice>"
                for (k = 0; k < 489; k++) printf "<xs:element name=\"a%d.%d\" type=\"E\"/>", i, k
            }
            printf "<xs:element name=\"last\" type=\"E\" minOccurs=\"0\"/>"
            for (i = 0; i < 14; i++) printf "</xs:choice>"
        }'
        printf '</xs:complexType>%s' "$end"
    } > "$schema"
    { printf '<r>'; repeat "$1" '<e/>'; printf '</r>'; } > "$input"
}
hostile empty_choices 20000 200 0 0 '' to-per r "$schema"

# Elements of an all of 20, in the order opposite to that of the schema; elements of an all of 490 that may be absent, of
# which none stands: the matcher keeps a mark for each.
make_any_order() {
    {
        root_of_many a A
        printf '<xs:complexType name="E"/><xs:complexType name="A"><xs:all>'
        repeat 20 '<xs:element name="e%d" type="E"/>'
        printf '</xs:all></xs:complexType>%s' "$end"
    } > "$schema"
    awk -v count="$1" 'BEGIN {
        for (i = 19; i >= 0; i--) kids = kids "<e" i "/>"
        printf "<r>"
        for (i = 0; i < count; i++) printf "<a>%s</a>", kids
        printf "</r>"
    }' < /dev/null > "$input"
}
hostile any_order 100000 40 0 0 '' check r "$schema"
make_any_order_sent() { make_any_order "$1"; }
hostile any_order_sent 24000 80 0 0 '' to-per r "$schema"
beside any_order 100000 8 check r
beside any_order_sent 24000 16 to-per r
make_marks() {
    {
        root_of_many a A
        printf '<xs:complexType name="A"><xs:all>'
        repeat 490 '<xs:element name="e%d" type="xs:int" minOccurs="0"/>'
        printf '</xs:all></xs:complexType>%s' "$end"
    } > "$schema"
    { printf '<r>'; repeat "$1" '<a/>'; printf '</r>'; } > "$input"
}
hostile marks 200000 800 1 0 '' to-per r "$schema"

# Such lists of which none stands, in each of the 490 elements of an all: their values are kept until the last has come, and all
# together are no more than one value may be.
make_apart() {
    {
        printf '%s<xs:element name="r"><xs:complexType><xs:all>' "$head"
        repeat 490 '<xs:element name="l%d" type="L"/>'
        printf '</xs:all></xs:complexType></xs:element><xs:complexType name="L"><xs:sequence>'
        printf '<xs:element name="e" type="E" minOccurs="0" maxOccurs="unbounded"/>'
        printf '</xs:sequence></xs:complexType><xs:complexType name="E"><xs:sequence>'
        repeat 490 '<xs:element name="a%d" type="xs:int" minOccurs="0" maxOccurs="unbounded"/>'
        printf '</xs:sequence></xs:complexType>%s' "$end"
    } > "$schema"
    awk -v count=$(($1 / 490)) 'BEGIN {
        for (i = 0; i < count; i++) lists = lists "<e/>"
        printf "<r>"
        for (i = 489; i >= 0; i--) printf "<l%d>%s</l%d>", i, lists, i
        printf "</r>"
    }' < /dev/null > "$input"
}
hostile apart 196000 600 1 12 'value of * nodes: too many' to-per r "$schema"

# ---- Octets

# A list of 2^32 items without bits, which 65,536 octets announce; texts in fragments of which the last isn't there.
make_announced() { { bytes "$1" '\304'; printf '\0'; } > "$input"; }
hostile announced 65536 3000 1 9 'input, bit 128: per: TooMany' to-xml r "$features"
make_fragments() {
    bytes 65536 a > "$work/fragment"
    for _ in $(seq "$1"); do printf '\304'; cat "$work/fragment"; done > "$input"
    printf '\304' >> "$input"
}
hostile fragments 252 8 0 9 'input, bit *: per: Short' to-xml s "$features"

# An order of one element that names it 2^32 times, and 983,040 times: a number of one has no bits.
make_order_of_one() {
    printf '%s<xs:element name="r"><xs:complexType><xs:all><xs:element name="a" type="xs:boolean" minOccurs="0"/>' "$head" > "$schema"
    printf '</xs:all></xs:complexType></xs:element>%s' "$end" >> "$schema"
    { printf '\0'; bytes "$1" '\304'; printf '\0'; } > "$input"
}
hostile order_of_one 65536 3000 1 9 'input, bit 136: per: TooMany' to-xml r "$schema"
make_order_again() { make_order_of_one $(($1 / 65536)); }
hostile order_again 983040 200 1 9 'input, bit 0: per: NotAValue' to-xml r "$schema"

# 16 octets that stand for 983,040 elements with a name of 255 bytes.
make_names_of_octets() {
    { root_of_many "$(bytes 255 n)" E; printf '<xs:complexType name="E"/>%s' "$end"; } > "$schema"
    { bytes $(($1 / 65536)) '\304'; printf '\0'; } > "$input"
}
hostile names_of_octets 1048560 700 1 0 '' to-xml r "$schema"

# ---- Octets of DER

# A length in the least octets; so many empty nodes; and these as the elements e of the root r.
length() {
    local digits
    printf -v digits '%x' "$1"
    [ $((${#digits} % 2)) -eq 0 ] || digits=0$digits
    [ "$1" -lt 128 ] || printf '%b' "\\x8$((${#digits} / 2))"
    printf '%b' "$(sed 's/../\\x&/g' <<< "$digits")"
}
empty_nodes() { yes 0 | head -n "$1" | tr '\n' '\0'; }
root_of_nodes() {
    { printf '\240'; length $(($1 * 2)); empty_nodes "$1"; } > "$work/nodes"
    { printf '0'; length "$(wc -c < "$work/nodes")"; cat "$work/nodes"; } > "$input"
}

# As many elements as 16 MB hold, which are too many; elements in one another, of which the 65th is too deep; as many elements
# as a value may have, and elements of 400 attributes that may stand, of which none does.
make_der_announced() { root_of_nodes "$1"; }
hostile der_announced 8000000 60 0 13 'input, byte *: der: TooMany' from-der r "$features"
make_der_deep() {
    local left=$1
    {
        printf '0'
        length "$left"
        for _ in $(seq 70); do
            left=$((left - 5))
            printf '\240'
            length "$left"
        done
        bytes "$left" a
    } > "$input"
}
hostile der_deep 16700000 8 0 13 'input, byte *: der: TooDeep' from-der z "$features"
make_der_elements() { root_of_nodes "$1"; }
hostile der_elements 1048574 200 0 0 '' from-der r "$features"
make_der_flags() {
    make_flags 1
    root_of_nodes "$1"
}
hostile der_flags 200000 800 1 0 '' from-der r "$schema"

# An identifier of 16 MB; a length of 126 octets, all bits of which are set; nothing but nodes of indefinite length.
make_der_identifier() { { printf '\277'; bytes "$1" '\377'; } > "$input"; }
hostile der_identifier 16700000 8 0 13 'input, byte 0: der: Tag' from-der e "$features"
make_der_length() { { printf '\014\376'; bytes "$1" '\377'; } > "$input"; }
hostile der_length 16700000 8 0 13 'input, byte 1: der: Short' from-der s "$features"
make_der_indefinite() { yes 0 | head -n "$1" | tr '\n' '\200' > "$input"; }
hostile der_indefinite 8000000 8 0 13 'input, byte 1: der: NotShortest' from-der r "$features"

# A number and a text of 16 MB; a list of so many items, both ways.
make_der_number() { { printf '\002'; length "$1"; bytes "$1" '\177'; } > "$input"; }
hostile der_number 16700000 8 0 13 'input, byte 5: der: TooWide' from-der n "$features"
make_der_text() { { printf '\014'; length "$1"; bytes "$1" a; } > "$input"; }
hostile der_text 16700000 8 0 0 '' from-der s "$features"
make_der_items() {
    make_items 0
    { printf '0'; length $(($1 * 3)); yes "$(printf '\014\001a')" | head -n "$1" | tr -d '\n'; } > "$input"
}
hostile der_items 1000000 80 0 0 '' from-der l "$schema"
make_der_items_sent() { make_items "$1"; }
hostile der_items_sent 1000000 80 0 0 '' to-der l "$schema"

# ---- Schemas

# So many simple types, each a restriction of the next, and of the one before.
make_chain() {
    {
        printf '%s<xs:element name="e" type="t0"/>' "$head"
        awk -v count="$1" 'BEGIN {
            for (i = 0; i < count - 1; i++)
                printf "<xs:simpleType name=\"t%d\"><xs:restriction base=\"t%d\"/></xs:simpleType>", i, i + 1
            printf "<xs:simpleType name=\"t%d\"><xs:restriction base=\"xs:int\"/></xs:simpleType>", count - 1
        }' < /dev/null
        printf '%s' "$end"
    } > "$schema"
}
hostile chain 9999 200 0 0 '' show "$schema"
make_chain_back() {
    {
        printf '%s<xs:simpleType name="t0"><xs:restriction base="xs:int"/></xs:simpleType>' "$head"
        awk -v count="$1" 'BEGIN {
            for (i = 1; i < count; i++)
                printf "<xs:simpleType name=\"t%d\"><xs:restriction base=\"t%d\"/></xs:simpleType>", i, i - 1
            printf "<xs:element name=\"e\" type=\"t%d\"/>", count - 1
        }' < /dev/null
        printf '%s' "$end"
    } > "$schema"
}
hostile chain_back 9999 200 0 0 '' show "$schema"

# One union of 1,000 members, and so many unions of it: each has 1,000 members.
make_unions() {
    {
        printf '%s<xs:simpleType name="u0"><xs:union memberTypes="' "$head"
        repeat 1000 'xs:int '
        printf '"/></xs:simpleType>'
        awk -v count="$1" 'BEGIN {
            for (i = 1; i < count; i++)
                printf "<xs:simpleType name=\"u%d\"><xs:union memberTypes=\"u%d\"/></xs:simpleType>", i, i - 1
        }' < /dev/null
        printf '%s' "$end"
    } > "$schema"
}
hostile unions 400 1200 1000 0 '' show "$schema"

# So many unions of two of the one before: the tenth has over 1,000 members, and is refused.
make_doubled() {
    {
        printf '%s<xs:simpleType name="u0"><xs:union memberTypes="xs:int xs:int"/></xs:simpleType>' "$head"
        awk -v count="$1" 'BEGIN {
            for (i = 1; i < count; i++)
                printf "<xs:simpleType name=\"u%d\"><xs:union memberTypes=\"u%d u%d\"/></xs:simpleType>", i, i - 1, i - 1
        }' < /dev/null
        printf '%s' "$end"
    } > "$schema"
}
hostile doubled 10000 200 0 5 'file 1, byte *: link: Limit' show "$schema"

# So many types, of 10,000 words each, in as many files as they need; so many types that restrict the one that has them.
words() {
    printf '<xs:simpleType name="t%d"><xs:restriction base="xs:token">' "$1"
    repeat 10000 '<xs:enumeration value="w%d"/>'
    printf '</xs:restriction></xs:simpleType>'
}
make_words() {
    words 0 > "$work/words"
    local number
    for file in 1 2 3 4; do
        {
            printf '%s' "$head"
            for number in $(seq $((($1 / 4) * file))); do
                [ "$number" -gt $((($1 / 4) * (file - 1))) ] && sed "s/name=\"t0\"/name=\"t$number\"/" "$work/words"
            done
            printf '%s' "$end"
        } > "$work/$file.xsd"
    done
}
hostile words 100 60 0 0 '' show "$work/1.xsd" "$work/2.xsd" "$work/3.xsd" "$work/4.xsd"
make_words_again() {
    {
        printf '%s' "$head"
        words 0
        awk -v count="$1" 'BEGIN {
            for (i = 1; i < count; i++)
                printf "<xs:simpleType name=\"t%d\"><xs:restriction base=\"t0\"/></xs:simpleType>", i
        }' < /dev/null
        printf '%s' "$end"
    } > "$schema"
}
hostile words_again 100 200 10000 0 '' show "$schema"

# 16 groups in one another, of so many particles each: sequences of particles that may be absent, and choices.
groups() {
    printf '%s<xs:complexType name="E"/><xs:element name="r"><xs:complexType>' "$head"
    awk -v count="$2" -v group="$1" -v occurs="$3" 'BEGIN {
        for (i = 0; i < 16; i++) {
            printf "<xs:%s>", group
            for (k = 0; k < count - 1; k++) printf "<xs:element name=\"e%d.%d\" type=\"E\"%s/>", i, k, occurs
        }
        printf "<xs:element name=\"last\" type=\"E\"/>"
        for (i = 0; i < 16; i++) printf "</xs:%s>", group
    }' < /dev/null
    printf '</xs:complexType></xs:element>%s' "$end"
}
make_sequences() { groups sequence "$1" ' minOccurs="0"' > "$schema"; }
hostile sequences 500 200 0 0 '' show "$schema"
make_choices() { groups choice "$1" '' > "$schema"; }
hostile choices 500 200 0 0 '' show "$schema"

# The last element of these sequences, behind all that are absent.
make_absent() {
    make_sequences "$1"
    printf '<r><last/></r>' > "$input"
}
hostile absent 500 200 0 0 '' to-per r "$schema"

# Names that are all converted to one.
make_collisions() {
    {
        printf '%s' "$head"
        awk -v count="$1" 'BEGIN {
            for (i = 0; i < count; i++) {
                name = "a"
                for (n = i; n > 0; n = int(n / 3)) name = name substr("._-", n % 3 + 1, 1)
                printf "<xs:element name=\"%s\" type=\"xs:int\"/>", name
            }
        }' < /dev/null
        printf '%s' "$end"
    } > "$schema"
}
hostile collisions 9000 200 0 0 '' show "$schema"

# References to an attribute whose default value has 1,000,000 bytes: each use keeps the text, and `show` writes it again.
make_defaults() {
    {
        printf '%s<xs:attribute name="a" type="xs:string" default="' "$head"
        bytes 1000000 x
        printf '"/>'
        repeat "$1" '<xs:complexType name="t%d"><xs:attribute ref="a"/></xs:complexType>'
        printf '%s' "$end"
    } > "$schema"
}
hostile defaults 200 4 1000000 0 '' show "$schema"

# More components than a set may have; more members than a union; more words than a type; the same facet again and again.
make_components() { { printf '%s' "$head"; repeat "$1" '<xs:element name="e%d" type="xs:int"/>'; printf '%s' "$end"; } > "$schema"; }
hostile components 300000 60 0 5 'file 1, byte *: link: Limit' show "$schema"
make_members() {
    {
        printf '%s<xs:simpleType name="t"><xs:union memberTypes="' "$head"
        repeat "$1" 'xs:int '
        printf '"/></xs:simpleType>%s' "$end"
    } > "$schema"
}
hostile members 2000000 60 0 5 'file 1, byte 79: link: Limit' show "$schema"
make_facets() {
    {
        printf '%s<xs:simpleType name="t"><xs:restriction base="xs:int">' "$head"
        repeat "$1" "$2"
        printf '</xs:restriction></xs:simpleType>%s' "$end"
    } > "$schema"
}
make_enumerations() { make_facets "$1" '<xs:enumeration value="%d"/>'; }
hostile enumerations 400000 60 0 4 'file 1, byte 79: schema: Limit' show "$schema"
make_bounds() { make_facets "$1" '<xs:minInclusive value="%d"/>'; }
hostile bounds 400000 60 0 5 'file 1, byte 79: link: Facet Misplaced' show "$schema"

# What is skipped.
make_annotations() { { printf '%s' "$head"; repeat "$1" '<xs:annotation/>'; printf '%s' "$end"; } > "$schema"; }
hostile annotations 1000000 60 0 0 '' show "$schema"

# ---- Printed modules

module_head='Schema-Set DEFINITIONS XER INSTRUCTIONS AUTOMATIC TAGS ::= BEGIN'
module_end='ENCODING-CONTROL XER
    GLOBAL-DEFAULTS MODIFIED-ENCODINGS
    GLOBAL-DEFAULTS CONTROL-NAMESPACE "http://www.w3.org/2001/XMLSchema-instance" PREFIX "xsi"
END'

# A module of these assignments.
module() {
    printf '%s\n' "$module_head"
    cat
    printf '%s\n' "$module_end"
}

# So many items of an ENUMERATED, which ascend, and the last of them.
items() {
    printf 'ENUMERATED { '
    repeat $(($1 - 1)) 'w%07d, '
    printf 'w%07d }' $(($1 - 1))
}

# Values behind DEFAULT that name the last items of a type which all refer to, and of one that stands there.
make_shared_items() {
    {
        printf 'A ::= SEQUENCE {\n'
        repeat "$1" "    a%d [ATTRIBUTE] E DEFAULT w$(printf %07d $(($1 - 1))),\n"
        printf '    b BOOLEAN\n}\nE ::= '
        items "$1"
        printf '\n'
    } | module > "$schema"
}
hostile shared_items 200000 200 0 0 '' show-back "$schema"
make_own_items() {
    {
        printf 'A ::= SEQUENCE {\n    a [ATTRIBUTE] [LIST] SEQUENCE OF '
        items "$1"
        printf ' DEFAULT { '
        repeat "$1" "w$(printf %07d $(($1 - 1))), "
        printf 'w0000000 }\n}\n'
    } | module > "$schema"
}
hostile own_items 600000 200 0 0 '' show-back "$schema"

# Types with the order of one content, which has many attributes before its one element.
make_shared_content() {
    {
        repeat "$1" 'T%d ::= [USE-NIL] [USE-ORDER] SEQUENCE {\n    order SEQUENCE OF ENUMERATED { z },\n    content C OPTIONAL\n}\n'
        printf 'C ::= SEQUENCE {\n'
        repeat "$1" '    a%d [ATTRIBUTE] BOOLEAN,\n'
        printf '    z BOOLEAN\n}\n'
    } | module > "$schema"
}
hostile shared_content 100000 200 0 0 '' show-back "$schema"

# ---- The greatest texts: a file and an input with spaces up to 16,777,216 bytes, and one more

# A text and spaces behind it, in so many bytes together.
filled() {
    printf '%s' "$2"
    bytes $(($1 - ${#2})) ' '
}
truth="$head<xs:element name=\"f\" type=\"xs:boolean\"/>$end"
make_longest_file() { filled "$1" "$truth" > "$schema"; }
hostile longest_file 16777216 8 0 0 '' show "$schema"
make_longer_file() { filled 16777217 "$truth" > "$schema"; }
hostile longer_file 16777217 8 0 11 'file 1: too long' show "$schema"
make_longest_input() { filled "$1" '<e/>' > "$input"; }
hostile longest_input 16777216 8 0 0 '' to-per e "$features"
make_longer_input() { filled 16777217 '<e/>' > "$input"; }
hostile longer_input 16777217 8 0 11 'input: too long' to-per e "$features"
make_longer_octets() {
    for _ in $(seq 257); do printf '\304'; bytes 65536 a; done > "$input"
}
hostile longer_octets 1 8 0 11 'input: too long' to-xml s "$features"

[ "$wrong" = 0 ]
