# shellcheck shell=bash disable=SC2154
# The ways in which a seal is handed over, and how long it may be.

octets_of "$samples/seal.hex" > "$folder/octets"
sed '/^#/d' "$expected/seal" > "$folder/seal"
holds 'a seal in octets' 0 "$folder/seal" "$folder/octets"
holds 'a seal on standard input' 0 "$folder/seal" - < "$folder/octets"
holds 'a seal in hex on standard input' 0 "$expected/seal" --hex - < "$samples/seal.hex"
holds 'no octets on standard input' 1 "$expected/empty" - < /dev/null

# The house stands in the entry, and is told where it is none.
holds 'house 258' 0 "$expected/house-258" --house 258 "$folder/octets"
holds 'house 0' 1 "$expected/house-0" --house 0 "$folder/octets"
holds 'house 32,768' 1 "$expected/house-32768" --house 32768 "$folder/octets"

# Around 65,535 octets: 18 of header, 50 of feature 02, a feature with 4 and a value, and FF 00.
long() {
    local value=$1
    head -c 68 "$folder/octets"
    octets "0582$(printf '%04x' "$value")"
    head -c "$value" /dev/zero
    octets ff00
}
long 65461 > "$folder/longest"
long 65462 > "$folder/too-long"
try 'the longest seal has 65,535 octets' [ "$(wc -c < "$folder/longest")" -eq 65535 ]
holds 'a seal of 65,535 octets' 0 "$expected/longest" "$folder/longest"
holds 'a seal of 65,536 octets' 1 "$expected/too-long" "$folder/too-long"
