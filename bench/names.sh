# A document of so many times the last of 9,800 names, which stand in 20 choices in a repeated choice, and its schema; it is
# sourced by the scripts of this folder.
names() {
    {
        printf '<xs:schema xmlns:xs="http://www.w3.org/2001/XMLSchema">'
        printf '<xs:complexType name="E"/><xs:element name="r"><xs:complexType>'
        printf '<xs:choice minOccurs="0" maxOccurs="unbounded">'
        awk 'BEGIN {
            letters = "abcdefghijklmnopqrstuvwxyz"
            for (i = 0; i < 9800; i++) {
                if (i % 490 == 0) printf "%s<xs:choice>", (i > 0) ? "</xs:choice>" : ""
                name = substr(letters, i % 26 + 1, 1) substr(letters, int(i / 26) % 26 + 1, 1) substr(letters, int(i / 676) + 1, 1)
                printf "<xs:element name=\"%s\" type=\"E\"/>", name
            }
            printf "</xs:choice>"
        }'
        printf '</xs:choice></xs:complexType></xs:element></xs:schema>\n'
    } > "$work/names.xsd"
    awk -v steps="$1" 'BEGIN { printf "<r>"; for (i = 0; i < steps; i++) printf "<xmo/>"; printf "</r>" }' > "$work/names"
}
