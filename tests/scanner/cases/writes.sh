# shellcheck shell=bash disable=SC2154
# Seals that are written: one as the papers' rules have it, then what was read of every accepted sample.

# An entry, and the options that give the header of the sample version-03, which has a signature of four octets.
"$folder/scanner" --hex --out "$folder/entry" "$samples/version-03.hex" > /dev/null
header=(--country UTO --signer UT01 --reference FFAFF --issued 2016-08-08 --signed 2007-08-09)
octets 07070707 > "$folder/signature"
holds 'a seal is written' 0 "$expected/write" --write "${header[@]}" --signature "$folder/signature" "$folder/entry"
{ sed '$d' "$expected/write" && echo "  written      76 octets, to $folder/seal-out" && echo; } > "$folder/written"
holds 'a seal is written to a file' 0 "$folder/written" \
    --write "${header[@]}" --signature "$folder/signature" --out "$folder/seal-out" "$folder/entry"
try 'it is the sample' cmp "$folder/seal-out" <(octets_of "$samples/version-03.hex")

# Without a signature: FF 00 behind what is signed.
message() {
    "$folder/scanner" --write "${header[@]}" --out "$folder/unsigned" "$folder/entry" > /dev/null \
        && cmp <(head -c -2 "$folder/unsigned") <(head -c 70 "$folder/seal-out") \
        && cmp <(tail -c 2 "$folder/unsigned") <(octets ff00)
}
try 'what is signed does not depend on the signature' message

# In hex, on standard input, and of several ways to say one thing.
entry_hex=$(od -An -v -tx1 "$folder/entry" | tr -d ' \n')
printf '# a signature\n0707 0707\n' > "$folder/signature.hex"
holds 'an entry and a signature in hex' 0 "$expected/write" \
    --write "${header[@]}" --hex --signature="$folder/signature.hex" - <<< "$entry_hex"
holds 'an entry on standard input' 0 "$expected/write" \
    --write "${header[@]}" --octet=3 --signature "$folder/signature" - < "$folder/entry"
holds 'the header of a seal' 0 "$expected/write" \
    --write --like "$folder/seal-out" --signature "$folder/signature" -- "$folder/entry"
holds 'a field over that of a seal' 0 <(sed 's/UTO$/D<</; s/d9c5d9ad/6abcd9ad/; /nationality\|state/s/D<</UTO/' "$expected/write") \
    --write --like "$folder/seal-out" --country D --signature "$folder/signature" "$folder/entry"

# ---- what is read of every accepted sample, with its version set to 3, is written and read back

# What is shown of a seal apart from its version, how long it is and where its signature stands.
but_its_version() {
    sed '/^#/d; /^  octets  /d; /^  version  /d; /^  written  /d; s/^\(  signature .* octets\) from .*/\1/'
}
read_seal_of() {
    "$folder/scanner" --out "$folder/entry" "$1" > "$folder/read" || return 1
    tail -c +"$(($(sed -n 's/^  signature .* octets from //p' "$folder/read") + 1))" "$1" > "$folder/signature"
}
comes_back() {
    octets_of "$1" > "$folder/octets"
    read_seal_of "$folder/octets" \
        && "$folder/scanner" --write --like "$folder/octets" --octet 3 --signature "$folder/signature" --out "$folder/again" \
            "$folder/entry" > /dev/null \
        && "$folder/scanner" "$folder/again" > "$folder/read-again" \
        && grep -qx '  version      03' "$folder/read-again" \
        && diff <(but_its_version < "$folder/read") <(but_its_version < "$folder/read-again")
}
# As it was read: version 02 is not written, version 03 is, and where it has no other features it is the same seal.
unchanged() {
    local status
    read_seal_of "$folder/octets" && rm -f "$folder/as-read"
    "$folder/scanner" --write --like "$folder/octets" --signature "$folder/signature" --out "$folder/as-read" "$folder/entry" \
        > "$folder/shown"
    status=$?
    if grep -qx '  version      02' "$folder/read"; then
        [[ $status -eq 1 && ! -e $folder/as-read ]] && grep -q '^  refused, 28 at place 0: ' "$folder/shown"
    else
        [[ $status -eq 0 ]] && cmp "$folder/octets" "$folder/as-read"
    fi
}
came_back=0
for sample in "$samples"/*.hex; do
    grep -q '^# Accepted: ' "$sample" || continue
    name=$(basename "$sample" .hex)
    try "$name is written and read back" comes_back "$sample"
    try "$name as it was read is written only from version 03" unchanged
    came_back=$((came_back + 1))
done
try 'there are some accepted samples' [ "$came_back" -gt 5 ]

# ---- what is refused, each with a file that stays as it was

"$folder/scanner" --hex --out "$folder/entry" "$samples/version-03.hex" > /dev/null
cp "$folder/seal-out" "$folder/before"
refused_with() {
    local name=$1 number=$2
    shift 2
    "$folder/scanner" --write --out "$folder/seal-out" "$@" > "$folder/output"
    try "$name" [ "$?.$(sed -n 's/^  refused, \([0-9]*\) at place 0: .*/\1/p' "$folder/output")" = "1.$number" ]
    try "$name leaves what was there" cmp "$folder/before" "$folder/seal-out"
}
octets 00 > "$folder/no-entry"
refused_with 'no entry' 18 "${header[@]}" "$folder/no-entry"
holds 'no entry is shown as it is' 1 "$expected/write-entry" --write "${header[@]}" "$folder/no-entry"
refused_with 'an empty file' 18 "${header[@]}" /dev/null
cat "$folder/entry" "$folder/entry" > "$folder/two"
refused_with 'two entries' 18 "${header[@]}" "$folder/two"
refused_with 'no header' 28 "$folder/entry"
refused_with 'a day that the calendar has not' 28 "${header[@]::6}" --issued 2001-02-29 --signed 2007-08-09 "$folder/entry"
refused_with 'a country in small letters' 28 --like "$folder/before" --country uto "$folder/entry"
refused_with 'a reference that is not hexadecimal' 28 --like "$folder/before" --reference FFAFG "$folder/entry"
refused_with 'a signer of three characters' 28 --like "$folder/before" --signer UT0 "$folder/entry"
refused_with 'version 2' 28 --like "$folder/before" --octet 2 "$folder/entry"
head -c 65462 /dev/zero > "$folder/long"
refused_with 'a signature that is too long' 28 "${header[@]}" --signature "$folder/long" "$folder/entry"
head -c 65461 /dev/zero > "$folder/long"
holds_longest() {
    "$folder/scanner" --write "${header[@]}" --signature "$folder/long" --out "$folder/longest-out" "$folder/entry" > /dev/null \
        && [[ $(wc -c < "$folder/longest-out") -eq 65535 ]] && "$folder/scanner" "$folder/longest-out" > /dev/null
}
try 'the longest seal is written and read back' holds_longest
octets_of "$samples/24-dc.hex" > "$folder/none"
holds 'the header of what is no seal' 1 "$expected/write-like" --write --like "$folder/none" "$folder/entry"

# A passport's entry is one that no seal holds.
octets "$(sed -n 's/^  entry        //p' tests/desk/expected/t3)" > "$folder/passport"
refused_with 'a passport' 17 "${header[@]}" "$folder/passport"
refused_with 'a passport, and no header' 17 "$folder/passport"

# A picture of a seal that was written, read again.
if command -v dmtxwrite > /dev/null && command -v dmtxread > /dev/null; then
    dmtxwrite -e b -o "$folder/seal.png" "$folder/before"
    "$folder/scanner" "$folder/before" > "$folder/seal"
    holds 'a picture of what was written' 0 "$folder/seal" - < <(dmtxread "$folder/seal.png")
else
    echo 'scanner: no dmtxwrite, so no picture of a seal was made (on Debian: apt install dmtx-utils)'
fi
