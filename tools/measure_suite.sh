#!/bin/sh
# Counts the instructions that tag and keystream of one message cost (CMAC over 42 octets, counter mode over 37, both keys given
# with the message), here and with three libraries. Outside the gate; needs valgrind and the Debian packages libtomcrypt-dev,
# libmbedtls-dev and libssl-dev. Each figure is the difference of a run of 1,100 messages and one of 100, over 1,000.
set -eu
cd "$(dirname "$0")/.."
work=$(mktemp -d)
trap 'rm -rf "$work"' EXIT
tools/build.sh suite_runs
cp crates/suite_runs/out/suite_runs "$work/newtcobalt"
cc -O2 -DTOMCRYPT tools/suite_cost.c -o "$work/libtomcrypt" -ltomcrypt
cc -O2 -DMBEDTLS tools/suite_cost.c -o "$work/mbedtls" -lmbedcrypto
cc -O2 -DOPENSSL tools/suite_cost.c -o "$work/openssl" -lcrypto
count() {
    valgrind --tool=callgrind --callgrind-out-file=/dev/null "$@" 2>&1 | sed -n 's/.*Collected : //p'
}
for name in newtcobalt libtomcrypt mbedtls openssl; do
    few=$(count "$work/$name" cost 100)
    many=$(count "$work/$name" cost 1100)
    echo "$name: $(((many - few) / 1000)) instructions, answer $("$work/$name" cost 1100)"
done
