#!/usr/bin/env bash
# bench/messages.sh [COUNT]: changes COUNT network messages at random, 20,000 without a word, as a test of xp_tests_bytes
# does with fewer of them: each is refused, or is what it is encoded as. It runs that test alone, unproved, on a copy.
set -u

top="$(dirname "$(dirname "$(readlink -f "${BASH_SOURCE[0]}")")")"
count="${1:-20000}"
folder="$(mktemp -d)" || exit 1
trap 'rm -rf "$folder"' EXIT

mkdir "$folder/crates"
cp "$top/crates.txt" "$top/HANDLES" "$folder"
for crate in "$top"/crates/*/; do
    name="$(basename "$crate")"
    mkdir "$folder/crates/$name"
    for part in src specs proofs; do
        [ ! -d "$crate$part" ] || cp -r "$crate$part" "$folder/crates/$name"
    done
done

tests="$folder/crates/xp_tests_bytes"
source="$tests/src/mutations.rt"
sed -i -e "s/^const MESSAGES: u32 = .*/const MESSAGES: u32 = $count;/" -e "s/^const DUMPS: u32 = .*/const DUMPS: u32 = 0;/" "$source"
if ! grep -q "^const MESSAGES: u32 = $count;\$" "$source"; then
    echo "bench/messages.sh: no count in $source" >&2
    exit 1
fi
printf '#![tactic(auto)]\n\n#[cfg(test)]\nmod dumps;\n#[cfg(test)]\nmod messages;\n#[cfg(test)]\nmod mutations;\n' >"$tests/src/lib.rt"
find "$tests/src" -name '*.rt' ! -name lib.rt ! -name dumps.rt ! -name messages.rt ! -name mutations.rt -delete
cd "$tests" && rt try --test --seconds 600
