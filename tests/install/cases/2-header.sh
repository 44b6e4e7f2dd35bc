# shellcheck shell=bash disable=SC2154
# What the installed headers say to a compiler.

compiles() {
    "$@" -Wall -Wextra -Wpedantic -Werror -I"$folder/usr/include" -c -o "$folder/object"
}

# A host that makes one call and does something with its answer.
host_of() {
    printf '#include <lamphudet_seals.h>\nvoid host(void);\nvoid host(void)\n{\n    %s\n}\n' "$1" > "$folder/host.c"
}

# Every language that a host may be written in.
host_of '(void)lamphudet_words(LAMPHUDET_NOT_REFUSED);'
for language in c99 c11 c17; do
    try "the headers in $language" compiles cc -std=$language "$folder/host.c"
done
for language in c++98 c++11 c++17; do
    if command -v c++ > /dev/null; then
        try "the headers in $language" compiles c++ -std=$language -Wno-long-long -x c++ "$folder/host.c"
    else
        echo "install: no C++ compiler, so the headers were not tried in $language"
    fi
done

# An answer that is thrown away is told, of every call.
for call in 'digest(0, 0, 0, 0)' 'read_text(1, 0, 0, 0, 0)' 'read_presentation(1, 0, 0, 0, 0)' 'group_file(0, 0, 1)' \
    'look_inside(0, 0)' 'read_detail(0, 0, 0x5f0e)' 'full_name(0, 0, 0, 0)' 'write_text(0, 0, 0, 0)' 'open_entry(0, 0)' \
    'next_entry(0, 0, 0)' 'look_over(0, 0)' 'house_entries(0, 0, 1)' 'version()' 'read_seal(1, 0, 0, 0, 0)' \
    'write_seal(0, 0, (lamphudet_seal_header){ .version = 3 }, 0, 0, 0, 0)' 'seals_version()'; do
    host_of "lamphudet_$call;"
    try "the answer of $call is not to be thrown away" refuses 'unused' compiles cc -std=c99 "$folder/host.c"
done

# Structs that are laid out otherwise than the archives' do not compile. With a wider uint32_t each of these is.
host_of ''
{ printf '#include <stddef.h>\n#include <stdint.h>\n#define uint32_t uint64_t\n' && cat "$folder/host.c"; } > "$folder/wider.c"
for asserted in size_of_lamphudet_{answer,detail,record,seal} lamphudet_{answer,detail,seal}_expected; do
    try "$asserted is held, before C11" refuses "lamphudet_asserted_$asserted" compiles cc -std=c99 "$folder/wider.c"
    try "$asserted is held, in C11" refuses "\"$asserted\"" compiles cc -std=c11 "$folder/wider.c"
done

# The version stands in the header, and everything else takes it from there.
says_version() {
    [[ $(PKG_CONFIG_PATH="$folder/usr/lib/pkgconfig" pkg-config --modversion "$1") = "$version" ]]
}
try 'the header has a version' grep -qxE '[0-9]+\.[0-9]+\.[0-9]+' <<< "$version"
try 'pkg-config says the version of lamphudet' says_version lamphudet
try 'pkg-config says the version of lamphudet_seals' says_version lamphudet_seals
