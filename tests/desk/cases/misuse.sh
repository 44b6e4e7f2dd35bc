# shellcheck shell=bash disable=SC2154
# What the desk does not understand is told on standard error, in one line that names it.

is_misused 'no command' 'no command is given'
is_misused 'no such command' "there is no command 'board'" board
is_misused 'an option without a command' 'desk takes no option --house' --house 1 text
is_misused 'no such option' 'text takes no option --all' text --all
is_misused 'no such option, with a value' 'text takes no option --all' text --all=1
is_misused 'a short option' 'text takes no option -f' text -f "$first$second"
is_misused 'the beginning of an option' 'text takes no option --hous' text --hous 1 "$first$second"
is_misused 'an option of another command' 'run takes no option --house' run --house 1 --hex $samples/run.hex
is_misused 'an option without its value' '--hex is given without its value' presentation --hex
is_misused 'a house that is no number' "--house is given 'one', which is no number up to 4294967295" \
    text --house one "$first$second"
is_misused 'a house past 32 bits' "--house is given '4294967297', which is no number up to 4294967295" \
    text --house=4294967297 "$first$second"
is_misused 'no house' "--house is given '', which is no number up to 4294967295" text --house= "$first$second"
is_misused 'an empty name' '--file is given an empty name' text --file=
is_misused 'no group' 'group is given without its number' group
is_misused 'no group behind options' 'group is given without its number' group --hex $samples/presentation.hex
is_misused 'a group that is no number' "group is given 'two', which is no number" group two --hex $samples/presentation.hex

# One input is read, and nothing is given twice.
is_misused 'a file and a file of hex' '--file and --hex are both given, and one input is read' \
    presentation --file $samples/presentation.hex --hex $samples/presentation.hex
is_misused 'a file and a text' "'$first$second' is given beside a file, and one input is read" \
    text --file $samples/t3.text "$first$second"
is_misused 'two files' '--file is given twice' text --file $samples/t3.text --file $samples/refused.text
is_misused 'two files of hex' '--hex is given twice' run --hex $samples/run.hex --hex=$samples/run.hex
is_misused 'two houses' '--house is given twice' text --house 1 --house 1 "$first$second"
is_misused 'options on both sides of a group' '--hex is given twice' \
    group --hex $samples/presentation.hex 1 --hex $samples/presentation.hex
is_misused 'no file for entries' '--out is given no file, and standard output is for what is shown' \
    text --out - "$first$second"
is_misused 'no file for a house'\''s entries' '--out is given no file, and standard output is for what is shown' \
    list --house 1 --out - --hex $samples/list.hex
is_misused 'a file and no house' '--out is given without --house, and one house'\''s entries are written' \
    list --out "$folder/none" --hex $samples/list.hex

# Files that cannot be read or written.
says 'no such file' 2 "$folder/none: No such file or directory" text --file "$folder/none"
says 'a folder that is not there' 2 "$folder/none/file: No such file or directory" \
    group 1 --hex $samples/presentation.hex --out "$folder/none/file"

# Hex that is none, by its line and column, or by its operand.
says 'no hex' 2 'HEX 1, column 2: g is no hex digit' run 0g
says 'no hex in a second operand' 2 'HEX 2, column 4: x is no hex digit' run 00 $'0 \t''x'
says 'what would steer a terminal' 2 'HEX 1, column 1: ? is no hex digit' run $'\e'
says 'a remark, of which only files have any' 2 'HEX 1, column 1: # is no hex digit' run '#00'
says 'half an octet' 2 'HEX 2: the hex ends in half an octet' run 00 0
printf '# a remark\n00 01\n02 0g 03\n' > "$folder/no.hex"
says 'no hex in a file' 2 "$folder/no.hex, line 3, column 5: g is no hex digit" group 1 --hex "$folder/no.hex"
says 'no hex on standard input' 2 'standard input, line 3, column 5: g is no hex digit' group 1 --hex - < "$folder/no.hex"
printf '00 0\n1 0\n# a remark\n' > "$folder/half.hex"
says 'half an octet in a file' 2 "$folder/half.hex, line 2: the hex ends in half an octet" group 1 --hex "$folder/half.hex"
