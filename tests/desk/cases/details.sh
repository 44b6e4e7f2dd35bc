# shellcheck shell=bash disable=SC2154
# Files of group 11: the details that they have, by name.

for sample in details details-{names,all,escaped,template}; do
    holds "a file that is read, $sample" 0 "$expected/$sample" details --hex "$samples/$sample.hex"
done
# Each of these says in its first line where it is refused.
for cause in start no-list foreign second-list cut behind encoding-first list-{odd,foreign,twice} order itself more missing; do
    sample=$samples/details-$cause.hex
    holds "a file that is refused, $cause" 1 "$expected/details-$cause" details --hex "$sample"
    refusal=$(sed -nE '1s/^# ([0-9]+ at) ([0-9]+):.*/  refused, \1 place \2:/p' "$sample")
    try "$sample is refused where it says" grep -q "^${refusal:-no refusal}" "$expected/details-$cause"
done
sed '/^#/d' "$expected/details" > "$folder/details"
octets_of $samples/details.hex > "$folder/octets"
holds 'a file of group 11 in octets' 0 "$folder/details" details --file "$folder/octets"
holds 'a file of group 11 on standard input' 0 "$folder/details" details < "$folder/octets"
holds 'no octets for details' 1 <(printf '  octets       0\n  refused, 10 at place 0: encoding\n\n') details < /dev/null
holds 'a list that names nothing' 0 <(printf '  octets       4\n  details: 0\n\n') details 6b025c00
is_misused 'an output for details' 'details takes no option --out' details --out "$folder/none" 6b025c00

# What is shown of a full name whose octets are given in hex.
name_shown() {
    local len=$((${#1} / 2))
    "$folder/desk" details "$(printf '6b%02x5c025f0e5f0e%02x%s' $((len + 7)) $len "$1")" \
        | sed -n 's/^  full name               //p'
}
escaped() {
    printf '%s\n' "$1" | sed 's/../\\x&/g'
}
# Well-formed characters at the edges of each length, a soft hyphen, the two that join and part letters, and a variant of an
# ideograph.
for hex in 7e c2a0 c2ad dfbf e0a080 e2808c e2808d ed9fbf ee8080 efbfbd f0908080 f3a08480 f48fbfbf; do
    try "$hex is shown as it is" diff <(octets "$hex" && echo) <(name_shown "$hex")
done
# Controls; marks, embeddings, overrides and isolates of direction; ends of lines; characters that cannot be seen.
for hex in 01 09 0a 0d 1b 1f 7f c280 c285 c29b c29f d89c e2808b e2808e e2808f e280a8 e280a9 e280aa e280ae e281a0 e281a6 e281a9 \
    e281af efbbbf efbfb9 efbfbb f3a08080 f3a081bf; do
    try "$hex is escaped" diff <(escaped "$hex") <(name_shown "$hex")
done
# Octets that are no character: alone, cut off, in a longer form than is needed, half of a pair, past the last one.
for hex in 80 bf c0 c2 ff fe c080 c1bf e0a0 e09fbf eda080 edbfbf f09080 f08fbfbf f4908080 f5808080 f888808080; do
    try "$hex is escaped" diff <(escaped "$hex") <(name_shown "$hex")
done
# All of a value is escaped where any of it is, and a backslash is then two.
try 'a value with one control' diff <(printf '%s\n' 'A\\\xce\xa9\x07B') <(name_shown 415ccea90742)
try 'a value with none' diff <(printf '%s\n' 'A\ΩB') <(name_shown 415ccea942)
try 'an empty value' diff <(echo empty) <(name_shown '')

# The other names, in their template: as many as are counted, and nothing more.
others_shown() {
    local len=$((${#1} / 2))
    "$folder/desk" details "$(printf '6b%02x5c025f0fa0%02x%s' $((len + 6)) $len "$1")" \
        | sed -n 's/^  other names             //p'
}
try 'no other names' diff <(echo none) <(others_shown 020100)
try 'one that is empty' diff <(echo empty) <(others_shown 0201015f0f00)
for hex in '' 0201 020101 0201005f0f00 0201025f0f0141 0201015f0e00 0202000100 0301015f0f00 0201015f0f0241 0201015f \
    0201015f0f8100; do
    try "other names that are not as they should be, $hex" \
        diff <(printf 'in hex, a0%02x%s\n' $((${#hex} / 2)) "$hex") <(others_shown "$hex")
done

# In a presentation: with the full name beside that of the text, whether or not group 11 has one.
holds 'a presentation with details' 0 "$expected/presentation-details" presentation --hex $samples/presentation-details.hex
"$folder/desk" group 11 --hex $samples/presentation-details.hex > "$folder/group-11"
sed '/^#/d' "$expected/details-names" > "$folder/names"
holds 'a file of group 11 out of a presentation' 0 "$folder/names" details --file "$folder/group-11"
# EF.COM, the security object and group 1 of the sample, and behind them another file of group 11, which has its digest in its
# entry: 32 octets from 90, in a presentation where that file begins at 215.
sample_11=$(hex_of $samples/presentation-details.hex)
with_group_11() {
    local digest
    digest=$(octets "$1" | sha256sum | cut -d ' ' -f 1)
    echo "${sample_11:0:180}$digest${sample_11:244:186}$1"
}
names_of() {
    "$folder/desk" presentation "$(with_group_11 "$1")" | sed -n '/^    details/,/^  house/p' | sed '$d'
}
try 'the sample again' diff <(names_of "$(hex_of $samples/details-names.hex)") \
    <(sed -n '/^    details/,/^    in text/p' "$expected/presentation-details")
names_from_text() {
    printf '%s\n' "$@" '  full name    NORD<<ELIN' '    from       the text' '    in text    NORD<<ELIN'
}
try 'a group 11 without a full name' diff <(names_of 6b025c00) <(names_from_text '    details    0')
try 'a group 11 with an empty one' diff <(names_of 6b075c025f0e5f0e00) \
    <(names_from_text '    details    1' '      full name               empty')
# Its refusal refuses no presentation, and its place counts from the presentation's start.
try 'a group 11 that is refused' diff <(names_of 6b095c025f105f0e024142) \
    <(names_from_text '    details    refused, 20 at place 221: tag list of group 11, or elements that differ from it')
try 'such a presentation is accepted' "$folder/desk" presentation "$(with_group_11 6b095c025f105f0e024142)" > "$folder/output"
# Of a presentation that is refused the details are shown, and no name is told as the passenger's.
"$folder/desk" presentation "${sample_11:0:598}36" > "$folder/output"
try 'a presentation with another group 11 than was signed' grep -q '^  refused, 15 at place 215: digest differs' "$folder/output"
try 'its details are shown' grep -q '^      full date of birth      19900116' "$folder/output"
try 'its full name is not told' [ "$(grep -c '^  full name' "$folder/output")" = 0 ]
