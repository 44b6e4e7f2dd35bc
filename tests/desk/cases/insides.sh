# shellcheck shell=bash disable=SC2154
# Files of groups, looked into.

holds 'a file that is whole' 0 "$expected/inside" inside --hex $samples/inside.hex
holds 'a face that is whole' 0 "$expected/inside-face" inside --hex $samples/inside-face.hex
for cause in encoding depth templates; do
    holds "a file that is refused, $cause" 1 "$expected/inside-$cause" inside --hex "$samples/inside-$cause.hex"
done
sed '/^#/d' "$expected/inside" > "$folder/inside"
octets_of $samples/inside.hex > "$folder/octets"
holds 'a file in octets' 0 "$folder/inside" inside --file "$folder/octets"
holds 'a file on standard input' 0 "$folder/inside" inside < "$folder/octets"

# The tree that is shown of a file, by its last line and the one before: a tag of two octets, the deepest element, and one that
# holds nothing.
shows_last() {
    local name=$1 line=$2 elements=$3
    shift 3
    "$folder/desk" inside "$@" > "$folder/output"
    try "$name" diff <(tail -n 3 "$folder/output") <(printf '%s\n  elements: %s\n\n' "$line" "$elements")
}
shows_last 'an empty file' '  61                         0       0' 1 6100
shows_last 'an empty element' '    30                       2       0' 2 6102 3000
shows_last 'a tag of two octets' '    7f21                     2       0' 2 6103 7f2100
shows_last 'elements behind a deeper one' '    1f7f                     6       0' 4 6107 3002 0400 1f7f00
shows_last 'the deepest element' '                04          14       0' 8 610e 300c 300a 3008 3006 3004 3002 0400
shows_last "the State's own" '  6d                         0       3' 1 6d03ffffff
shows_last 'a primitive element' '    0a                       2       2' 2 6c040a02ffff

# A file is what is lent, and nothing else.
holds 'no octets' 1 <(printf '  octets       0\n  refused, 10 at place 0: encoding\n\n') inside < /dev/null
answers 'an octet behind a file' 1 - /dev/null inside 6100 61 << END
  octets       3
    octets from 0
    61 00 61
          ^
  refused, 10 at place 2: encoding

END
answers 'a presentation, which is no file of a group' 1 - /dev/null inside --file <(octets_of $samples/presentation.hex) << END
  octets       226
    octets from 0
    60 15 5f 01 04 30 31 30
    ^
  refused, 10 at place 0: encoding

END

# What desk group writes is what desk inside reads. Its places count from the file's start.
sed '/^#/d' "$expected/inside-face" > "$folder/face"
"$folder/desk" group 2 --hex $samples/presentation-face.hex > "$folder/group-2"
holds 'a face out of a presentation' 0 "$folder/face" inside --file "$folder/group-2"
holds 'a presentation with a face that is whole' 0 "$expected/presentation-face" presentation --hex $samples/presentation-face.hex
is_misused 'an output for what is looked into' 'inside takes no option --out' inside --out "$folder/none" 6100
