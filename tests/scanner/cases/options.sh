# shellcheck shell=bash disable=SC2154
# Options, and what the scanner says of itself.

"$folder/scanner" --help > "$folder/usage"
try 'the usage names every option' [ "$(grep -c -e '--house .*--hex.*--out\|--help | -h | --version' "$folder/usage")" = 2 ]
for option in like octet country signer reference issued signed signature hex out; do
    try "the usage of --write names --$option" grep -q "\[--${option}[] ]" <(sed -n '/scanner --write/,/ENTRY$/p' "$folder/usage")
done
for words in '-h' '--hex --help' '--house 1 -h' '--write --help' '--write --hex -h'; do
    # The words are several.
    # shellcheck disable=SC2086
    holds "help by $words" 0 "$folder/usage" $words
done
holds 'the version' 0 <(echo "scanner $version") --version
holds 'the version, of writing' 0 <(echo "scanner $version") --write --version

octets_of "$samples/seal.hex" > "$folder/octets"
cp "$folder/octets" "$folder/--dashes"
sed '/^#/d' "$expected/seal" > "$folder/seal"
holds 'a house behind =' 0 "$expected/house-258" --house=258 "$folder/octets"
holds 'a file behind --' 0 "$folder/seal" -- "$folder/octets"
dashes_taken() {
    (cd "$folder" && ./scanner -- --dashes) | diff "$folder/seal" -
}
try 'a file whose name begins with dashes' dashes_taken
cp "$folder/octets" "$folder/write"
write_taken() {
    (cd "$folder" && ./scanner write && ./scanner -- write && ./scanner octets write) | diff <(cat "$folder"/seal{,,,}) -
}
try 'a file that is called write' write_taken

# Entries that were accepted go to a file, which is a run: each seal's, in order.
cat "$expected/seal" "$expected/24-dc" "$expected/version-03" > "$folder/several"
echo "  written      2 entries, 102 octets, to $folder/kept" >> "$folder/several"
holds 'entries are written' 1 "$folder/several" \
    --out "$folder/kept" --hex "$samples/seal.hex" "$samples/24-dc.hex" "$samples/version-03.hex"
entries_of() {
    sed -n 's/^  entry        //p' "$@" | tr -d '\n'
}
try 'they are those that are shown' cmp "$folder/kept" <(octets "$(entries_of "$expected/seal" "$expected/version-03")")
cp "$folder/kept" "$folder/kept-before"
says 'a file that cannot be read' 2 "$folder/none: No such file or directory" --out "$folder/kept" "$folder/none"
try 'leaves what is kept' cmp "$folder/kept-before" "$folder/kept"
answers 'a file that cannot be read, behind one that can' 2 "$expected/seal" \
    <(echo "scanner: $folder/none: No such file or directory") --out "$folder/kept" --hex "$samples/seal.hex" "$folder/none"
try 'leaves what is kept too' cmp "$folder/kept-before" "$folder/kept"
