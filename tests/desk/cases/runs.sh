# shellcheck shell=bash disable=SC2154
# Runs of entries.

holds 'a run' 0 "$expected/run" run --hex $samples/run.hex
holds 'a run that is cut' 1 "$expected/run-cut" run --hex $samples/run-cut.hex
holds 'a run with a spare bit set' 1 "$expected/run-spare" run --hex $samples/run-spare.hex
holds 'entries of before there was data' 1 "$expected/run-old" run --hex $samples/run-old.hex
holds 'an empty run' 0 "$expected/run-empty" run < /dev/null
sed '/^#/d' "$expected/run" > "$folder/run"
octets_of $samples/run.hex > "$folder/run.octets"
holds 'a run in octets' 0 "$folder/run" run --file "$folder/run.octets"

# Entries that were accepted go to a file, which is a run. Those of the samples are the run's second and first.
written() {
    echo "  written      $1 entries, $2 octets, to $folder/kept"
}
holds 'an entry is written' 0 <(cat "$expected/t3" && written 1 43) text --out "$folder/kept" "$first$second"
try 'it is the first of the run' cmp -n 43 "$folder/kept" "$folder/run.octets"
holds 'and is read as a run' 0 <(sed -n '1,2p' "$folder/run" && printf '  entries: 1\n\n') run --file "$folder/kept"
holds 'the entries of several texts' 1 \
    <(cat "$expected/t3" "$expected/no-characters" "$expected/t3" && written 2 86) \
    text --out="$folder/kept" "$first$second" '' "$first$second"
try 'they are joined' cmp "$folder/kept" <(head -c 43 "$folder/run.octets" && head -c 43 "$folder/run.octets")
holds 'the entry of a presentation' 0 <(cat "$expected/presentation" && written 1 43) \
    presentation --out "$folder/kept" --hex $samples/presentation.hex
try 'it is that of its text' cmp -n 43 "$folder/kept" "$folder/run.octets"
holds 'no entry of what is refused' 1 <(cat "$expected/presentation-digest" && written 0 0) \
    presentation --out "$folder/kept" --hex $samples/presentation-digest.hex
holds 'which is the empty run' 0 "$expected/run-empty" run --file "$folder/kept"
says 'a file that cannot be read leaves what is kept' 2 "$folder/none: No such file or directory" \
    text --out "$folder/kept-before" --file "$folder/none"
try 'nothing was written' [ ! -e "$folder/kept-before" ]
