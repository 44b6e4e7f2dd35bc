# shellcheck shell=bash disable=SC2154
# Presentations: each answer with its stage.

# One that is sound, and one for each stage.
holds 'a presentation' 0 "$expected/presentation" presentation --hex $samples/presentation.hex
sed '/^#/d' "$expected/presentation" > "$folder/presentation"
octets_of $samples/presentation.hex > "$folder/octets"
holds 'a presentation in octets' 0 "$folder/presentation" presentation --file "$folder/octets"
holds 'a presentation on standard input' 0 "$folder/presentation" presentation < "$folder/octets"
holds 'a presentation of LDS 1.8' 0 "$expected/presentation-newer" presentation --hex $samples/presentation-newer.hex
for stage in walk com algorithm versions digest text; do
    holds "a presentation that is refused, $stage" 1 "$expected/presentation-$stage" \
        presentation --hex "$samples/presentation-$stage.hex"
done
holds 'a presentation of 65,536 octets' 1 "$expected/presentation-size" presentation < <(head -c 65536 /dev/zero)
holds 'a presentation with house 0' 1 "$expected/presentation-house-0" presentation --house 0 --file "$folder/octets"
holds 'a presentation of no octets' 1 "$expected/presentation-empty" presentation < /dev/null
# What should still stand in EF.COM is told at its end, which is where the security object stands or should stand.
holds 'an EF.COM that holds nothing' 1 "$expected/presentation-com-empty" presentation 6000 3000
holds 'no security object' 1 "$expected/presentation-no-object" presentation 6000

# EF.COM and the security object of the sample, and behind them another file of group 1, which has its digest in its entry: 32
# octets from 52, in a presentation whose files begin at 123.
sample=$(hex_of $samples/presentation.hex)
with_group_1() {
    local digest
    digest=$(octets "$1" | sha256sum | cut -d ' ' -f 1)
    echo "${sample:0:104}$digest${sample:168:78}$1"
}
# Its place is the presentation's length.
holds 'no group 1' 1 "$expected/presentation-no-group-1" presentation "${sample:0:246}"
holds 'an empty group 1' 1 "$expected/presentation-group-1-empty" presentation "$(with_group_1 6100)"
holds 'an empty text in group 1' 1 "$expected/presentation-text-empty" presentation "$(with_group_1 61035f1f00)"

# The texts of refused.text with a wrong check digit, in group 1: what is expected is told there too, at the place in the
# presentation, where the text stands from 123 + 5 on. Visas are apart.
in_group_1() {
    printf '61%02x5f1f%02x' $((${#1} + 3)) ${#1}
    od -An -v -tx1 <<< "$1" | tr -d ' \n' | sed 's/0a$//'
}
digits=0
while read -r place digit text; do
    "$folder/desk" presentation "$(with_group_1 "$(in_group_1 "$text")")" > "$folder/output"
    try "a presentation with a wrong digit at $place of its text" \
        grep -qx "  refused, 9 at place $((128 + place)): check digit, expected $digit" "$folder/output"
    digits=$((digits + 1))
done < <(sed -nE '/^# 9 at/,/^$/ { s/^# 9 at ([0-9]+), expected ([0-9]):.*/\1 \2/; p }' $samples/refused.text |
    awk -v RS= '!/\nV/ { print $1, $2, $3 $4 $5 }')
try 'nine texts have a wrong digit' [ "$digits" -eq 9 ]

# The visas of both samples, accepted or refused alone: in group 1 none may stand, so that each is 3 where its text begins.
visas=0
while read -r text; do
    "$folder/desk" presentation "$(with_group_1 "$(in_group_1 "$text")")" > "$folder/output"
    try "a visa in group 1, $text" grep -qx '  refused, 3 at place 128: document code' "$folder/output"
    visas=$((visas + 1))
done < <(cat $samples/specimens.text <(echo) $samples/refused.text | sed '/^#/d' | awk -v RS= '/^V/ { print $1 $2 }')
try 'five texts begin with V' [ "$visas" -eq 5 ]
mrv_a='V<UTOERIKSSON<<ANNA<MARIA<<<<<<<<<<<<<<<<<<<L8988901C4XXX4009078F96121096ZE184226B<<<<<<'
holds 'a visa in group 1' 1 "$expected/presentation-visa" presentation "$(with_group_1 "$(in_group_1 "$mrv_a")")"
# A character that is none of the alphabet goes before the code.
"$folder/desk" presentation "$(with_group_1 "$(in_group_1 "${mrv_a/MARIA/MARIa}")")" > "$folder/output"
try 'a visa in group 1 with a lower case letter' grep -qx '  refused, 2 at place 152: character not A-Z, 0-9, <' "$folder/output"

# T3 with a filler for the check of its personal number, which is all fillers: in all that is shown, the sample.
holds 'a presentation that leaves the personal check out' 0 "$folder/presentation" \
    presentation "$(with_group_1 "$(in_group_1 "$first${second%00}<0")")${sample:432}"

# The samples are what OpenSSL's encoder made, where the vectors of tests/compare have the same.
for pair in presentation:two-entries presentation-{algorithm:sha-1,digest:digest-of-the-inside,text:wrong-digit} \
    presentation-{newer:v1,versions:v1-lds-0107}; do
    sample_hex=$(hex_of "$samples/${pair%:*}.hex")
    try "the sample ${pair%:*} is the vector ${pair#*:}" [ "$sample_hex" = "$(hex_of "tests/compare/vectors/${pair#*:}.hex")" ]
done
