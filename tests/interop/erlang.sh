#!/usr/bin/env bash
# Tries asn1ct of Erlang in aligned and unaligned PER and in DER: it decodes our octets, and encodes what it decoded.
#
#     tests/interop/erlang.sh [COUNT]      needs the program (`make run`); COUNT random sets (40)
#
# tests/interop/tool.py says what is tried, and tests/interop/all.sh runs all tools.
packages='erlang-asn1'
check='command -v erlc && command -v erl'
. "$(dirname "$0")/run.sh"
