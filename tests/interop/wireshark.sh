#!/usr/bin/env bash
# Tries Wireshark in aligned and unaligned PER, in DER, and in aligned PER after a stamp: tshark shows our octets with a plugin of asn2wrs.
#
#     tests/interop/wireshark.sh [COUNT]      needs the program (`make run`); COUNT random sets (40)
#
# tests/interop/tool.py says what is tried, and tests/interop/all.sh runs all tools.
packages='tshark wireshark-dev libwireshark-dev libglib2.0-dev python3-ply pkg-config gcc libc6-dev'
check='command -v tshark && command -v text2pcap && [ -e /usr/share/pyshared/asn2wrs.py ] && pkg-config wireshark glib-2.0 && command -v gcc && /usr/bin/python3 -c "import ply"'
. "$(dirname "$0")/run.sh"
