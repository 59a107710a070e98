# Orders of so many lines, as the trial makes them; it is sourced by the scripts of this folder.
cp examples/order.xsd "$work/order.xsd"

order() {
    awk -v lines="$1" 'BEGIN {
        printf "<order xmlns=\"urn:po\" id=\"7\">"
        for (i = 0; i < lines; i++) printf "<line><sku>S%d</sku><qty>%d</qty></line>", i, 1 + i % 100
        printf "</order>"
    }'
}
