# shellcheck shell=bash disable=SC2154
# The line end that a reader of pictures may put behind a seal. A seal that ends in FF 01 0A is 71 octets.

# One is left out on standard input, and only there: a file is taken as it is.
octets_of "$samples/seal.hex" > "$folder/octets"
{ cat "$folder/octets" && echo; } > "$folder/line"
with_line_end() {
    awk '1; NR == 1 { print "  line end     behind the seal, left out" }' "$1"
}
sed '/^#/d' "$expected/seal" > "$folder/seal"
with_line_end "$folder/seal" > "$folder/left-out"
holds 'a line end behind the seal' 0 "$folder/left-out" - < "$folder/line"
holds 'a line end in a file' 1 "$expected/line-end" "$folder/line"
holds 'two line ends behind the seal' 1 "$expected/line-ends" - < <(cat "$folder/line" && echo)

# What looks like a line end and is the seal's own stays.
message=$(head -c 68 "$folder/octets" | od -An -v -tx1 | tr -d ' \n')
holds 'a signature that ends like a line' 0 "$expected/signature-0a" - < <(octets "${message}ff010a")
holds 'such a signature, and a line end' 0 <(with_line_end "$expected/signature-0a") - < <(octets "${message}ff010a0a")
holds 'such a signature, cut off' 1 "$expected/signature-0a-cut" - < <(octets "${message}ff020a")
# Without its last octet the feature would be cut off, which is another refusal.
holds 'a feature that ends like a line' 1 "$expected/feature-0a" - < <(octets "${message}05010a")

# A printed seal, read from its picture.
if command -v dmtxread > /dev/null; then
    holds 'the picture, with a line end' 0 "$folder/left-out" - < <(dmtxread -n "$samples/seal.png")
    holds 'the picture' 0 "$folder/seal" - < <(dmtxread "$samples/seal.png")
else
    echo 'scanner: no dmtxread, so the picture of a seal was not read (on Debian: apt install dmtx-utils)'
fi
