#!/usr/bin/env bash
# Tries libtasn1 in DER: asn1Decoding reads our octets, and asn1Coding encodes the value of the document.
#
#     tests/interop/libtasn1.sh [COUNT]      needs the program (`make run`); COUNT random sets (40)
#
# tests/interop/tool.py says what is tried, and tests/interop/all.sh runs all tools.
packages='libtasn1-bin'
check='command -v asn1Decoding'
. "$(dirname "$0")/run.sh"
