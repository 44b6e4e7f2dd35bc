# shellcheck shell=bash disable=SC2154
# What the scanner does not understand is told on standard error, in one line that names it.

is_misused 'nothing' 'no file is given'
is_misused 'options and no file' 'no file is given' --hex --house 1
is_misused 'no such option' 'scanner takes no option --text' --text "$samples/seal.hex"
is_misused 'a short option' 'scanner takes no option -x' -x "$samples/seal.hex"
is_misused 'a house that is no number' "--house is given 'one', which is no number up to 4294967295" \
    --house one "$samples/seal.hex"
is_misused 'a house past 32 bits' "--house is given '4294967297', which is no number up to 4294967295" \
    --house=4294967297 "$samples/seal.hex"
is_misused 'a house without its number' '--house is given without its value' --house
is_misused 'two houses' '--house is given twice' --house 1 --house=2 "$samples/seal.hex"
is_misused 'hex twice' '--hex is given twice' --hex --hex "$samples/seal.hex"
is_misused 'hex with a value' '--hex takes no value' --hex="$samples/seal.hex"
is_misused 'an empty name' '--out is given an empty name' --out '' --hex "$samples/seal.hex"
is_misused 'no file for entries' '--out is given no file, and standard output is for what is shown' \
    --out - --hex "$samples/seal.hex"

is_misused 'no entry to write' 'no entry is given' --write
is_misused 'options and no entry' 'no entry is given' --write --country UTO --hex
is_misused 'two entries to write' 'more than one entry is given, and a seal has one' --write "$folder/one" "$folder/two"
is_misused 'a house of a seal' '--write takes no option --house' --write --house 1 "$folder/one"
is_misused 'a field of what is read' 'scanner takes no option --country' --country UTO "$samples/seal.hex"
is_misused 'a country that is too long' '--country is given more than 3 characters' --write --country UTOP "$folder/one"
is_misused 'a signer that is too long' '--signer is given more than 4 characters' --write --signer UT012 "$folder/one"
is_misused 'a reference that is too long' '--reference is given more than 255 characters' \
    --write --reference "$(printf '%0256d' 0)" "$folder/one"
for day in 2016-8-08 2016-08-8 16-08-08 2016/08/08 2016-08-081 20160808 2016-08-0x; do
    is_misused "$day as a date" "--issued is given '$day', which is no date as 2016-08-08" --write --issued "$day" "$folder/one"
    is_misused "$day as the other date" "--signed is given '$day', which is no date as 2016-08-08" \
        --write --signed "$day" "$folder/one"
done
is_misused 'a version past an octet' "--octet is given '256', which is no octet" --write --octet 256 "$folder/one"
is_misused 'a version that is no number' "--octet is given 'three', which is no number up to 4294967295" \
    --write --octet three "$folder/one"
is_misused 'two signatures' '--signature is given twice' --write --signature a --signature b "$folder/one"
is_misused 'no file for a seal' '--out is given no file, and standard output is for what is shown' \
    --write --out - "$folder/one"
says 'no such entry' 2 "$folder/none: No such file or directory" --write "$folder/none"
says 'no such signature' 2 "$folder/none: No such file or directory" --write --signature "$folder/none" /dev/null
says 'no such seal' 2 "$folder/none: No such file or directory" --write --like "$folder/none" /dev/null

printf '\ndc 0g\n' > "$folder/no-hex"
printf 'dc0\n' > "$folder/half"
says 'no hex' 2 "$folder/no-hex, line 2, column 5: g is no hex digit" --hex "$folder/no-hex"
says 'half an octet' 2 "$folder/half, line 1: the hex ends in half an octet" --hex "$folder/half"
says 'no such file' 2 "$folder/none: No such file or directory" "$folder/none"
says 'a folder' 2 'the input cannot be read: Is a directory' "$folder"
answers 'a folder that is not there' 2 "$expected/seal" <(echo "scanner: $folder/none/file: No such file or directory") \
    --out "$folder/none/file" --hex "$samples/seal.hex"
