#!/usr/bin/env bash
# Tries openssl in DER: asn1parse lists the nodes of our octets, and encodes the value of the document.
#
#     tests/interop/openssl.sh [COUNT]      needs the program (`make run`); COUNT random sets (40)
#
# tests/interop/tool.py says what is tried, and tests/interop/all.sh runs all tools.
packages='openssl'
check='command -v openssl'
. "$(dirname "$0")/run.sh"
