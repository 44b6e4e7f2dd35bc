# shellcheck shell=bash disable=SC2154
# Lists of a night: what each house has in them, and where they are refused.

holds 'a list' 0 "$expected/list" list --hex $samples/list.hex
holds 'an empty list' 0 "$expected/list-empty" list < /dev/null
# Each of these says in its first line where it is refused.
for cause in equal exchanged spare; do
    sample=$samples/list-$cause.hex
    holds "a list that is refused, $cause" 1 "$expected/list-$cause" list --hex "$sample"
    refusal=$(sed -nE '1s/^# ([0-9]+ at) ([0-9]+):.*/  refused, \1 place \2:/p' "$sample")
    try "$sample is refused where it says" grep -q "^${refusal:-no refusal}" "$expected/list-$cause"
done
# A run need not rise.
holds 'a run that is no list' 1 "$expected/list-run" list --hex $samples/run.hex
sed '/^#/d' "$expected/list" > "$folder/list"
octets_of $samples/list.hex > "$folder/list.octets"
holds 'a list in octets' 0 "$folder/list" list --file "$folder/list.octets"

# What one house has, which is a run, and a list.
one_house() {
    printf '  octets       204\n  entries      4\n  house %-6s %s\n' "$1" "$2"
}
written() {
    echo "  written      $1 entries, $2 octets, to $folder/house"
}
holds 'a house of a list' 0 <(one_house 3 '2 entries, 109 octets from 43' && echo) list --house 3 --file "$folder/list.octets"
holds 'its entries are written' 0 <(one_house 3 '2 entries, 109 octets from 43' && written 2 109 && echo) \
    list --house 3 --out "$folder/house" --file "$folder/list.octets"
try 'they are its own' cmp "$folder/house" <(tail -c +44 "$folder/list.octets" | head -c 109)
holds 'and are a list' 0 <(printf '  octets       109\n  entries      2\n  house 3      2 entries, 109 octets from 0\n\n') \
    list --file "$folder/house"
for house in 1:0:43 3:43:109 32767:152:52; do
    IFS=: read -r number from length <<< "$house"
    "$folder/desk" list --house "$number" --out "$folder/house-$number" --file "$folder/list.octets" > "$folder/told"
    try "house $number has its octets" cmp "$folder/house-$number" \
        <(tail -c +$((from + 1)) "$folder/list.octets" | head -c "$length")
done
try 'all houses, in their order, are the list' cmp "$folder/list.octets" <(cat "$folder"/house-{1,3,32767})
for house in 0 2 4 32766 32768 4294967295; do
    holds "a house that has none, $house" 0 <(one_house $house 'no entries' && written 0 0 && echo) \
        list --house $house --out "$folder/house" --file "$folder/list.octets"
    try 'which is the empty list' cmp "$folder/house" /dev/null
done
holds 'a house of a list that is refused' 1 "$expected/list-equal" \
    list --house 1 --out "$folder/refused" --hex $samples/list-equal.hex
try 'is given nothing' [ ! -e "$folder/refused" ]
