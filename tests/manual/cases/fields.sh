# shellcheck shell=bash disable=SC2154
# The parts of a text that lamphudet_field tells are those of the definition: their order, their widths, and where a long number
# stands.
forms=crates/zone/specs/Form.antt

# The parts of a form in text order, each with its width.
layout_of() {
    sed -n "/^row $1 = /,/^}/p" $forms | tr '\n' ' ' | sed 's/.*layout =//; s/\[\];.*//' | tr -s ' ' \
        | sed 's/ ∷ /\n/g' | sed -n 's/^ *\([a-z0-9_]*\) of \([0-9]*\) *$/\2 \1/p'
}
# The words that C has for each part.
in_words() {
    sed -E 's/ code$/ document code/; s/ state$/ issuing state/; s/ number$/ document number/; s/ optional$/ optional data/
        s/ optional2$/ second optional data/; s/ personal$/ personal number/; s/ composite$/ composite check digit/
        s/ number_check$/ check digit of the document number/; s/ birth_check$/ check digit of the birth/
        s/ expiry_check$/ check digit of the expiry/; s/ personal_check$/ check digit of the personal number/'
}
table_of() {
    sed -n "/lamphudet_part $1\[\] = {/,/};/p" include/lamphudet.h | grep -oE '\{ [1-9][0-9]*, "[^"]*" \}' \
        | sed -E 's/\{ ([0-9]+), "(.*)" \}/\1 \2/'
}
# How many characters stand before a part, and how many it has.
start_of() {
    layout_of "$1" | awk -v part="$2" '$2 == part { print sum + 0 } { sum += $1 }'
}
width_of() {
    layout_of "$1" | awk -v part="$2" '$2 == part { print $1 }'
}
total_of() {
    sed -n "/^row $1 = /,/^}/s/^  total = \([0-9]*\);$/\1/p" $forms
}
# A form's text is told by its length, and has its table.
told() {
    grep -q "^    case $(total_of "$1"): return lamphudet_part_at(${1,,}, place);$" include/lamphudet.h
}
# A visa's text is told by its length and its code.
told_visas() {
    local a b
    a=$(total_of MrvA) b=$(total_of MrvB)
    grep -q "return lamphudet_part_at(text_len == $a ? mrva : mrvb, place);$" include/lamphudet.h \
        && grep -q "return (text_len == $a || text_len == $b) && text\[0\] == 'V' " include/lamphudet.h
}
# A long number, in the forms that have one: with the check place, the optional field and its width.
long_number() {
    local at
    at="$(start_of "$1" number_check), $(start_of "$1" optional), $(width_of "$1" optional)"
    grep -q "text_len == $(total_of "$1") ? lamphudet_long_number_at(text, $at, place)" include/lamphudet.h
}
for form in Td1 Td2 Td3 MrvA MrvB; do
    try "the definition has parts of $form" [ "$(layout_of $form | wc -l)" -gt 10 ]
    try "the header has the parts of $form" diff <(layout_of $form | in_words) <(table_of ${form,,})
done
for form in Td1 Td2 Td3; do
    try "the header tells $form by its length" told $form
done
try 'the header tells visas by length and code' told_visas
for form in Td1 Td2; do
    try "the header has where a long number of $form stands" long_number $form
done
