# shellcheck shell=bash disable=SC2154
# Files of groups, written out.

# The file of a group, from its tag on: 10 octets from 216, and 93 from 123.
octets_of $samples/presentation.hex > "$folder/octets"
octets 75080406612066616365 > "$folder/group-2"
octets 615b5f1f58 > "$folder/group-1"
printf '%s%s' "$first" "$second" >> "$folder/group-1"
echo '  group 1      93 octets from 123' > "$folder/told"
holds 'the file of group 2' 0 "$folder/group-2" group 2 --hex $samples/presentation.hex
holds 'the file of group 1, into a file' 0 "$folder/told" group 1 --file "$folder/octets" --out "$folder/written"
try 'the file that was written' cmp "$folder/group-1" "$folder/written"
holds 'the file of group 1, of standard input' 0 "$folder/group-1" group 1 < "$folder/octets"
holds 'the file of group 2, to standard output by its name' 0 "$folder/group-2" group 2 --out - --hex $samples/presentation.hex

# Of the stages only 1 and 2 count for a file. What is refused is told, whether it has that file or not.
answers 'a file whose digest differs' 1 "$folder/group-1" \
    <(echo 'desk: the presentation is refused, 15 at place 123: digest differs') group 1 --hex $samples/presentation-digest.hex
answers 'a file beside a text with a wrong digit' 1 "$folder/group-2" \
    <(echo 'desk: the presentation is refused, 9 at place 215: check digit, expected 0') \
    group 2 --hex $samples/presentation-text.hex
answers 'no file where the outer walk fails' 1 /dev/null - group 1 --hex $samples/presentation-walk.hex << END
desk: the presentation is refused, 10 at place 216: encoding
desk: there is no file of group 1
END
for group in 0 3 6 16 17 258; do
    says "no file of group $group" 1 "there is no file of group $group" \
        group $group --hex $samples/presentation.hex --out "$folder/none"
done
try 'no file that holds nothing' [ ! -e "$folder/none" ]
