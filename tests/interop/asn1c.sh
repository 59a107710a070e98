#!/usr/bin/env bash
# Tries asn1c in unaligned PER and in DER: its program reads our octets, and encodes what it read.
#
#     tests/interop/asn1c.sh [COUNT]      needs the program (`make run`); COUNT random sets (40)
#
# tests/interop/tool.py says what is tried, and tests/interop/all.sh runs all tools.
packages='asn1c gcc libc6-dev'
check='command -v asn1c && command -v gcc'
. "$(dirname "$0")/run.sh"
