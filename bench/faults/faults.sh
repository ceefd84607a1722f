#!/usr/bin/env bash
# Puts each fault of list.txt into a copy of the twin and requires that the
# comparison finds it. Without a word the other engine is the second copy of
# the twin; with `native` it is the library.
set -euo pipefail

here=$(cd "$(dirname "$0")" && pwd)
package=$(dirname "$here")
work=$package/target/faults
copy=$work/package

features=--no-default-features
if [ "${1:-}" = native ]; then
    features=--features=native
    # The copy stands elsewhere, so a relative folder must be made absolute.
    LADLECOMET_LIB=$(cd "$package" && cd "${LADLECOMET_LIB:-../target/staticlib}" && pwd)
    export LADLECOMET_LIB
fi

mkdir -p "$copy"
rm -rf "$copy/src"
cp "$package/Cargo.toml" "$package/build.rs" "$copy/"
cp -r "$package/src" "$copy/src"
cp -r "$package/src/twin" "$copy/src/stand_in"
sed -i 's|path = "twin/mod.rs"|path = "stand_in/mod.rs"|' "$copy/src/lib.rs"

# Builds the copy and compares; hands back the comparison's exit, 9 when the
# copy doesn't build. The target folder is the same for all faults.
try() {
    (cd "$copy" && CARGO_TARGET_DIR=$work/build cargo build -q -j1 --profile quick \
        $features --bin compare >"$work/build.txt" 2>&1) || return 9
    "$work/build/quick/compare" --short --files 200000 --singles 200000 >"$work/out.txt" 2>&1
}

# Replaces text that must stand exactly once in a file.
put() {
    local file=$1 old=$2 new=$3 text rest
    text=$(<"$file")
    rest=${text#*"$old"}
    if [ "$rest" = "$text" ] || [[ $rest == *"$old"* ]]; then
        return 1
    fi
    printf '%s%s%s\n' "${text%%"$old"*}" "$new" "$rest" >"$file"
}

if ! try; then
    echo "the twin without a fault differs or doesn't build: see target/faults"
    exit 1
fi

found=0
missed=0
while IFS= read -r line; do
    case $line in '' | '#'*) continue ;; esac
    name=${line%% @@ *} rest=${line#* @@ }
    file=${rest%% @@ *} rest=${rest#* @@ }
    old=${rest%% @@ *} new=${rest#* @@ }
    if ! put "$copy/src/twin/$file" "$old" "$new"; then
        verdict='NO SUCH TEXT'
    else
        status=0
        try || status=$?
        case $status in
            1) verdict="found at $(grep -B1 '^difference' "$work/out.txt" | head -1)" ;;
            0) verdict='NOT FOUND' ;;
            *) verdict="BROKEN (exit $status)" ;;
        esac
    fi
    cp "$package/src/twin/$file" "$copy/src/twin/$file"
    case $verdict in found*) found=$((found + 1)) ;; *) missed=$((missed + 1)) ;; esac
    printf '%-45s %s\n' "$name" "$verdict"
done <"$here/list.txt"

echo "found $found, not found $missed"
[ "$missed" -eq 0 ]
