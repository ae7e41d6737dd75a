#!/bin/sh
# Proves and builds programs of this repository, and runs each once as the gate does: NAME is then the file crates/NAME/out/NAME.
set -eu
cd "$(dirname "$0")/../crates"
for name in "$@"; do
    cd "$name"
    given=/dev/null
    if [ -e stdin ]; then given=stdin; fi
    set --
    if [ -e args ]; then set -- $(cat args); fi
    rt run -- "$@" < "$given" > out.log 2>&1 || { cat out.log; rm -f out.log; exit 1; }
    rm -f out.log
    cd ..
done
