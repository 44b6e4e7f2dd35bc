# shellcheck shell=bash disable=SC2154
# The pages of section 3 have the calls, the names and the words that the headers have.

# The calls as a header has them, and as a page's synopsis does.
in_header() {
    declared "$1" | sed 's/ *[{;]$//' | LC_ALL=C sort
}
in_synopsis() {
    awk '
        /^\.Ft / { type = substr($0, 5) }
        /^\.Fn .*"/ {
            name = $2
            arguments = substr($0, index($0, "\""))
            gsub(/" "/, ", ", arguments)
            gsub(/"/, "", arguments)
            print type (type ~ /\*$/ ? "" : " ") name "(" arguments ")"
        }' "man/$1.3" | LC_ALL=C sort
}
# The fields of what is answered, and those that a page names.
fields_of() {
    sed -n '/^typedef struct/,/^}/p' "include/$1.h" | sed '/lamphudet_part {/,/^}/d; s|/\*.*||' \
        | sed -n 's/^    [a-z0-9_]* \(.*\);.*/\1/p' | sed 's/\[[^]]*\]//g; s/, */\n/g' | sort -u
}
has_fields() {
    diff <(fields_of "$1" | grep -vxFf <(sed -n 's/^\.Fa \([a-z_]*\).*/\1/p' "man/$1.3")) /dev/null
}
# The names that a header defines for hosts, and those of a page.
names_of() {
    grep -hv '^\.Dt ' "$@" | grep -oE '\bLAMPHUDET_[A-Z0-9_]+' | grep -v '_H$\|_ASSERT\|MUST_USE' | sort -u
}
has_names() {
    diff <(names_of "$1" | grep -vxFf <(names_of "${@:2}")) /dev/null
}

for library in lamphudet lamphudet_seals; do
    try "man/$library.3 has some calls" [ "$(in_synopsis $library | wc -l)" -gt 0 ]
    try "man/$library.3 has the calls of its header" diff <(in_header $library) <(in_synopsis $library)
    try "the header $library.h has some fields" [ "$(fields_of $library | wc -l)" -gt 0 ]
    try "man/$library.3 has the fields of its header" has_fields $library
    try "man/$library.3 makes no name up" has_names man/$library.3 include/*.h
done
try 'the pages have every name of lamphudet.h' has_names include/lamphudet.h man/*.3
try 'the pages have every name of lamphudet_seals.h' has_names include/lamphudet_seals.h man/*.3
