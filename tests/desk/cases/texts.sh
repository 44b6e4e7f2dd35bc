# shellcheck shell=bash disable=SC2154
# Texts, and how they are handed over.

# The same record in each way of handing a text over.
holds 'lines joined' 0 "$expected/t3" text "$first$second"
holds 'a blank between the lines' 0 "$expected/t3" text "$first $second"
holds 'blanks around the lines' 0 "$expected/t3" text $' \t'"$first"$'  \t '"$second "
holds 'line ends of Unix, none behind the last line' 0 "$expected/t3" text < <(printf '%s\n%s' "$first" "$second")
holds 'line ends of DOS, and blanks before them' 0 "$expected/t3" text < <(printf '  %s \r\n%s\t\r\n\r\n' "$first" "$second")

# The widths of the other forms' lines, at which a blank ends a line too. Their specimens are the second and the third.
specimen() {
    awk -v RS= -v at="$1" 'NR == at' "$expected/specimens" | tail -n +2
    echo
}
specimen 2 > "$folder/td1"
specimen 3 > "$folder/td2"
# The visas' lines are as wide as those of TD3 and TD2.
specimen 5 > "$folder/mrv-a"
specimen 6 > "$folder/mrv-b"
holds 'TD1 in one line' 0 "$folder/td1" text \
    'I<UTOD231458907<<<<<<<<<<<<<<< 7408122F1204159UTO<<<<<<<<<<<6 ERIKSSON<<ANNA<MARIA<<<<<<<<<<'
holds 'TD2 in one line' 0 "$folder/td2" text \
    'I<UTOERIKSSON<<ANNA<MARIA<<<<<<<<<<< D231458907UTO7408122F1204159<<<<<<<6'

holds 'MRV-A in one line' 0 "$folder/mrv-a" text \
    'V<UTOERIKSSON<<ANNA<MARIA<<<<<<<<<<<<<<<<<<< L8988901C4XXX4009078F96121096ZE184226B<<<<<<'
holds 'MRV-B in one line' 0 "$folder/mrv-b" text \
    'V<UTOERIKSSON<<ANNA<MARIA<<<<<<<<<<< L8988901C4XXX4009078F9612109<<<<<<<<'

# A text that is lent otherwise is shown as it was lent, and refused there.
holds 'a blank within a line' 1 "$expected/blank-kept" text "P<UTO NORD<<ELIN<<<<<<<<<<<<<<<<<<<<<<<<<<<< $second"
holds 'a line that is too short, behind a blank' 1 "$expected/short-line" text "$first ${second%0}"
holds 'a text of no characters' 1 "$expected/no-characters" text ''
holds 'standard input with nothing on it' 1 "$expected/no-characters" text < /dev/null
holds 'house 0' 1 "$expected/house-0" text --house 0 "$first$second"
holds 'house 32,768' 1 "$expected/house-32768" text --house 32768 "$first$second"
cat "$expected/t3" "$expected/no-characters" "$expected/t3" > "$folder/several"
holds 'one refused among several' 1 "$folder/several" text "$first$second" '' "$first$second"

holds 'the specimens' 0 "$expected/specimens" text --file $samples/specimens.text
holds "the issuer's data" 0 "$expected/data" text --house 258 --file $samples/data.text
holds 'long numbers, the greatest house' 0 "$expected/long-numbers" text --house 32767 --file $samples/long-numbers.text
holds 'each refusal of a text' 1 "$expected/refused" text --file $samples/refused.text

# Texts that have one line each need nothing between them; blanks within a line part the lines of its zone.
cat "$expected/t3" "$folder/td1" "$folder/td2" > "$folder/three"
printf '%s\n' "$first$second" ' I<UTOD231458907<<<<<<<<<<<<<<< 7408122F1204159UTO<<<<<<<<<<<6 ERIKSSON<<ANNA<MARIA<<<<<<<<<<' \
    'I<UTOERIKSSON<<ANNA<MARIA<<<<<<<<<<<D231458907UTO7408122F1204159<<<<<<<6' > "$folder/one-to-a-line"
holds 'texts, one to a line' 0 "$folder/three" text --file "$folder/one-to-a-line"
holds 'texts, one to a line, with line ends of DOS' 0 "$folder/three" text < <(sed 's/$/\r/' "$folder/one-to-a-line")
# A text that was broken where it has as many characters as another form's is one text all the same.
holds 'a text broken at 72 characters' 0 "$expected/t3" text < <(printf '%s\n' "$first$second" | fold -w 72)
# Otherwise they are one text, and it is told which lines were counted and what parts texts.
holds 'two texts with nothing between them' 1 "$expected/joined" text \
    < <(printf '# two\n\n%s\n%s\n%s\n%s\n' "$first" "$second" "$first" "$second")
holds 'a text that is too short, in its line' 1 "$expected/short" text < <(printf '\n\n%s\n' "$first${second%0}")
