#!/usr/bin/env bash
# Makes the two static libraries for programs in other languages, and lays them where bench looks for them: target/staticlib, under the names that
# callers link. `rt lib` leaves each in its crate's out/, under the crate's name.
set -euo pipefail
cd "$(dirname "$0")/.."
into=$PWD/target/staticlib
mkdir -p "$into"

library() {
    rm -f "$into/lib$2.a"
    if ! (cd "crates/$1" && rt lib) >"$into/lib$2.log" 2>&1; then
        cat "$into/lib$2.log" >&2
        echo "libraries: rt lib failed in crates/$1" >&2
        exit 1
    fi
    cp "crates/$1/out/lib$1.a" "$into/lib$2.a"
    echo "target/staticlib/lib$2.a: $(wc -c <"$into/lib$2.a") bytes"
}

library bridge bridge
library single_call_c single_call
