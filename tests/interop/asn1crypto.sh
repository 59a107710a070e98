#!/usr/bin/env bash
# Tries asn1crypto in DER: it reads our octets with classes made of the module, and encodes the value again.
#
#     tests/interop/asn1crypto.sh [COUNT]      needs the program (`make run`); COUNT random sets (40)
#
# tests/interop/tool.py says what is tried, and tests/interop/all.sh runs all tools.
packages='python3-asn1crypto'
check='/usr/bin/python3 -c "import asn1crypto"'
. "$(dirname "$0")/run.sh"
