# shellcheck shell=bash disable=SC2154,SC2016
# The refusals' numbers, in headers and pages, are those of the definitions: which there are, their names and words, and by
# which of them each call refuses.
numbers=crates/refusal/specs/Numbers.antt
calls=crates/refusal/specs/Calls.antt

# ---- which there are, each with its name

# A cause's name as C has it.
in_c() {
    sed -E 's/([a-z0-9])([A-Z])/\1_\2/g; s/ (.*)/ \U\1/'
}
# The numbers of the definition. The digit's is that of every refusal with a digit.
defined() {
    {
        sed -n 's/^why_of Cause\.\([A-Za-z]*\) = by \([0-9]*\)$/\2 \1/p' $numbers
        sed -n 's/^number_of (expecting digit) = \([0-9]*\)$/\1/p' $numbers \
            | sed "s/\$/ $(sed -n 's/^why_of (Cause\.\([A-Za-z]*\) digit) = expecting digit$/\1/p' $numbers)/"
    } | in_c | sort -n
}
in_enum() {
    sed -n 's/^    LAMPHUDET_REFUSED_\([A-Z_]*\) = \([0-9]*\),*$/\2 \1/p' include/lamphudet.h | sort -n
}
in_pages() {
    sed -n '/^\.It [0-9]*$/{s/^\.It //;N;s/\n\.Dv LAMPHUDET_REFUSED_/ /;s/ :$//;p;}' man/*.3 | sort -nu
}
try 'the definition has some numbers' [ "$(defined | wc -l)" -gt 20 ]
try 'every cause has a number' [ "$(defined | wc -l)" = "$(grep -c '^why_of ' $numbers)" ]
try "lamphudet.h's enum has them" diff <(defined) <(in_enum)
try 'the pages have them' diff <(defined) <(in_pages)

# ---- their words

# The words of each as the header has them, and the causes in its table, whose second column ends where the third begins.
words_of() {
    tr '\n' ' ' < include/lamphudet.h | grep -oE 'case LAMPHUDET_REFUSED_[A-Z_]+: +return "[^"]*"' \
        | sed -E 's/^case LAMPHUDET_REFUSED_([A-Z_]+): +return "(.*)"$/\1 \2/' | LC_ALL=C sort
}
table() {
    awk '
        /^ \*   No\.  Cause/ { in_table = 1; at = index($0, "Place"); next }
        in_table && /^ \*\// { exit }
        in_table {
            number = substr($0, 4, 5) + 0
            cause = substr($0, 9, at - 9)
            gsub(/^ +| +$/, "", cause)
            if (number > 0) { last = number; order[++n] = last }
            causes[last] = causes[last] (causes[last] != "" && cause != "" ? " " : "") cause
        }
        END { for (i = 1; i <= n; i++) print order[i] " " causes[order[i]] }' include/lamphudet.h
}
# What a table says of a cause begins with its words.
words_in_table() {
    local number name words cause wrong=0
    while read -r number name; do
        words=$(words_of | sed -n "s/^$name //p")
        cause=$(table | sed -n "s/^$number //p")
        if [[ -z $words || $cause != "$words"* ]]; then
            echo "$number: '$cause' in the table, '$words' in words"
            wrong=1
        fi
    done < <(defined)
    return $wrong
}
try "lamphudet.h's table has the numbers" diff <(defined | sed 's/ .*//') <(table | sed 's/ .*//')
try 'lamphudet_words has every name' diff <(defined | sed 's/.* //' | LC_ALL=C sort) <(words_of | sed 's/ .*//')
try 'the table has the words' words_in_table

# ---- those of each call

# The numbers of a call's list: its own, and those of the list that it ends in.
list_of() {
    local body
    body=$(sed -n "s/^$1\( reader\)* = //p" $calls)
    [[ -n $body ]] || { echo "no list $1" && return; }
    grep -oE '[0-9]+' <<< "$body"
    if [[ $body =~ (of_[a-z_]*)$ ]]; then
        list_of "${BASH_REMATCH[1]}"
    fi
}
# By which numbers a call refuses: a list's, and where it enters what was read also those of entering.
told_by() {
    {
        case $1 in
        lamphudet_read_text) list_of of_text && list_of entered ;;
        lamphudet_read_presentation) list_of of_presentation && list_of entered ;;
        lamphudet_read_seal) list_of of_seal && list_of entered ;;
        lamphudet_look_inside) list_of of_inside ;;
        lamphudet_read_detail) list_of of_details ;;
        lamphudet_write_text) list_of of_text_writer_in_c ;;
        lamphudet_write_seal) list_of of_seal_writer_in_c ;;
        lamphudet_open_entry | lamphudet_next_entry) list_of of_run ;;
        lamphudet_look_over) list_of of_list ;;
        lamphudet_digest) list_of of_digest ;;
        lamphudet_group_file | lamphudet_full_name | lamphudet_house_entries | lamphudet_version | lamphudet_seals_version) ;;
        *) echo "no list for $1" ;;
        esac
    } | sort -nu
}
# Numbers and ranges of them, one in each line.
ranges() {
    awk '{ to = NF > 1 ? $2 : $1; for (n = $1 + 0; n <= to + 0; n++) print n }' | sort -nu
}
# The table of the lists in the page on the demands.
lists() {
    sed -n 's/^\(of_[a-z_]*\|entered\)\( reader\)* = .*/\1/p' $calls | grep -vx of_fields | sort
}
rows() {
    sed -n 's/^| .* | \([0-9].*\) | `\([a-z_]*\)` |$/\2 \1/p' docs/DEMANDS.md
}
in_row() {
    rows | sed -n "s/^$1 //p" | grep -oE '[0-9]+( to [0-9]+)?' | sed 's/ to / /' | ranges
}
try 'docs/DEMANDS.md has a row for each list' diff <(lists) <(rows | sed 's/ .*//' | sort)
for list in $(lists); do
    try "docs/DEMANDS.md has the numbers of $list" diff <(list_of "$list" | sort -nu) <(in_row "$list")
done

# What the comment before a call's declaration lists.
in_comment() {
    awk -v call="$1" '
        /^\/\*/ { n = 0 }
        /^ \*   [0-9]+ / { line[++n] = $0 }
        index($0, call "(") == index($0, " lamphudet_") + 1 && !/static/ { for (i = 1; i <= n; i++) print line[i]; exit }
    ' include/*.h | sed -E 's/^ \*   ([0-9]+)( to ([0-9]+))?.*/\1 \3/' | ranges
}
# What a page's sentence on a call lists.
in_sentence() {
    local sentence
    sentence=$(awk -v call="$1" '
        /^\.It Fn / || /^\.El/ { here = ($3 == call) }
        here && /^(Refusals are|The one refusal is) / { said = 1 }
        /^\./ { said = 0 }
        here && said { print }' man/*.3 | tr '\n' ' ')
    {
        grep -oE '[0-9]+( to [0-9]+)?' <<< "$sentence" | sed 's/ to / /' | ranges
        [[ $sentence != *'those of the text'* ]] || list_of of_text
    } | sort -nu
}
calls_declared() {
    for library in lamphudet lamphudet_seals; do declared $library; done | grep -oE 'lamphudet_[a-z_]+\(.*;' | sed 's/(.*//'
}
for call in $(calls_declared); do
    try "the header has the numbers of $call" diff <(told_by "$call") <(in_comment "$call")
    try "its page has the numbers of $call" diff <(told_by "$call") <(in_sentence "$call")
done
