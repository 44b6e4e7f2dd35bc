# shellcheck shell=bash disable=SC2154
# Options, and what the desk says of itself.

"$folder/desk" --help > "$folder/usage"
try 'the usage names every command' [ "$(grep -c '^usage: desk \|^       desk ' "$folder/usage")" = 8 ]
for words in '-h' 'help' 'help text' 'text --help' 'text -h' 'presentation --house 1 --help' 'group --help' 'group 2 -h' \
    'inside --help' 'details --help' 'run --help' 'list --help'; do
    # The words are several.
    # shellcheck disable=SC2086
    holds "help by $words" 0 "$folder/usage" $words
done
holds 'the version' 0 <(echo "desk $version") --version
holds 'the version behind a command' 0 <(echo "desk $version") text --version

# A value behind = and behind a blank; -- ends the options; - is standard input.
holds 'a house behind =' 1 "$expected/house-32768" text --house=32768 "$first$second"
sed '/^#/d' "$expected/run" > "$folder/run"
octets_of $samples/run.hex > "$folder/run.octets"
holds 'a file behind =' 0 "$folder/run" run --file="$folder/run.octets"
holds 'a file of hex behind =' 0 "$expected/run" run --hex=$samples/run.hex
holds 'options ended' 0 "$expected/t3" text -- "$first$second"
holds 'a text behind --' 1 "$expected/dashes" text -- --text
holds 'a file that is standard input' 0 "$folder/run" run --file - < "$folder/run.octets"
holds 'a file of hex that is standard input' 0 "$expected/run" run --hex - < $samples/run.hex
holds 'options before a group' 0 <(octets 75080406612066616365) group --hex $samples/presentation.hex 2
holds 'options before a group, ended' 0 <(octets 75080406612066616365) group --hex $samples/presentation.hex -- 2
