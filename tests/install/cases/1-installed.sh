# shellcheck shell=bash disable=SC2154
# What make install puts where. The cases behind this one use what it installs below usr.

# Every file of an installation below a folder, by its path in it.
all_files() {
    cat << END
bin/desk
bin/scanner
include/lamphudet.h
include/lamphudet_seals.h
lib/liblamphudet.a
lib/liblamphudet.so
lib/liblamphudet.so.$(so_version "$version")
lib/liblamphudet.so.$version
lib/liblamphudet_seals.a
lib/liblamphudet_seals.so
lib/liblamphudet_seals.so.$(so_version "$version")
lib/liblamphudet_seals.so.$version
lib/pkgconfig/lamphudet.pc
lib/pkgconfig/lamphudet_seals.pc
share/doc/lamphudet/CHANGELOG.md
share/man/man1/desk.1
share/man/man1/scanner.1
share/man/man3/lamphudet.3
share/man/man3/lamphudet_digest.3
share/man/man3/lamphudet_field.3
share/man/man3/lamphudet_full_name.3
share/man/man3/lamphudet_group_file.3
share/man/man3/lamphudet_house_entries.3
share/man/man3/lamphudet_look_inside.3
share/man/man3/lamphudet_look_over.3
share/man/man3/lamphudet_next_entry.3
share/man/man3/lamphudet_open_entry.3
share/man/man3/lamphudet_read_detail.3
share/man/man3/lamphudet_read_presentation.3
share/man/man3/lamphudet_read_seal.3
share/man/man3/lamphudet_read_text.3
share/man/man3/lamphudet_seals.3
share/man/man3/lamphudet_seals_version.3
share/man/man3/lamphudet_version.3
share/man/man3/lamphudet_words.3
share/man/man3/lamphudet_write_seal.3
share/man/man3/lamphudet_write_text.3
END
}
found_below() {
    (cd "$1" && find . ! -type d | sed 's|^\./||' | LC_ALL=C sort)
}

# An installation below a folder, whole, and in its pkg-config files the prefix that was asked for.
stands() {
    diff <(all_files) <(found_below "$1") && grep -qx "prefix=$2" "$1/lib/pkgconfig/"*.pc && ! find "$1" -xtype l | grep .
}
installs() {
    make --silent install "$@" > /dev/null
}
installed() {
    installs PREFIX="$folder/usr" && stands "$folder/usr" "$folder/usr"
}

# A package is put together below DESTDIR, which nothing installed may name.
staged() {
    installs DESTDIR="$folder/stage" PREFIX=/opt/lamphudet && stands "$folder/stage/opt/lamphudet" /opt/lamphudet \
        && ! grep -rq "$folder" "$folder/stage/opt/lamphudet/lib/pkgconfig"
}

# What pkg-config says of another folder for libraries, below the prefix and elsewhere.
elsewhere() {
    installs PREFIX="$folder/multi" LIBDIR="$1" && [[ -f $1/liblamphudet.a ]] \
        && [[ $(PKG_CONFIG_PATH="$1/pkgconfig" pkg-config --libs-only-L lamphudet) =~ ^-L"$1"\ *$ ]]
}

# What was installed is taken away, and what stood there before stays.
taken_away() {
    mkdir -p "$folder/gone/lib" && touch "$folder/gone/lib/libother.a" && installs PREFIX="$folder/gone" \
        && make --silent uninstall PREFIX="$folder/gone" > /dev/null \
        && diff <(echo lib/libother.a) <(found_below "$folder/gone")
}

# Nothing is installed anywhere where a name has a blank.
refused() {
    refuses 'a blank' make --silent install PREFIX="$folder/usr" "$1=$folder/two words" && [[ ! -e "$folder/two words" ]] \
        && [[ ! -e "$folder/two" ]]
}

try 'make install' installed
try 'make install with DESTDIR' staged
try 'make install with LIBDIR' elsewhere "$folder/multi/lib/x86_64-linux-gnu"
try 'make install with LIBDIR outside of PREFIX' elsewhere "$folder/lib64"
try 'make uninstall' taken_away
for variable in PREFIX LIBDIR INCLUDEDIR BINDIR MANDIR DOCDIR DESTDIR; do
    try "a blank in $variable is refused" refused $variable
done

# Nor where a place is none.
refused_empty() {
    refuses "$1 is empty" make --silent install DESTDIR="$folder/empty" "$1=" && [[ ! -e $folder/empty ]] \
        && refuses "$1 is empty" make --silent uninstall DESTDIR="$folder/empty" "$1="
}
for variable in PREFIX LIBDIR INCLUDEDIR BINDIR MANDIR DOCDIR; do
    try "an empty $variable is refused" refused_empty $variable
done

# Make hands places to what installs, and to nothing else that it runs: each make that a test runs works out its own.
hands_none_on() {
    printf 'include Makefile\nshow:\n\t@env\n' > "$folder/shows"
    make --silent -f "$folder/shows" show > "$folder/handed" || return 1
    ! grep -E '^(LIBDIR|INCLUDEDIR|BINDIR|MANDIR|DOCDIR|SCANNER)=' "$folder/handed"
}
try 'make hands no place to its other recipes' hands_none_on

# What a program can take from an installed archive or shared library: these calls, and nothing else.
has_calls() {
    local library=$1
    shift
    [[ $(nm -g --defined-only "$folder/usr/lib/lib$library.a" | awk 'NF == 3 { print $3 }' | tr '\n' ' ') = "$* " ]] \
        && [[ $(nm -D --defined-only "$folder/usr/lib/lib$library.so" | awk '{ print $3 }' | tr '\n' ' ') = "$* " ]]
}
# The name by which programs ask for a shared library.
soname() {
    objdump -p "$1" | awk '$1 == "SONAME" { print $2 }'
}
has_name() {
    [[ $(soname "$folder/usr/lib/lib$1.so") = "lib$1.so.$(so_version "$version")" ]]
}

# The calls that a header declares are those that its libraries have.
names_declared() {
    declared "$1" | sed -n 's/^[^ ]* \([^(]*\)(.*;$/\1/p' | LC_ALL=C sort
}
for library in lamphudet lamphudet_seals; do
    mapfile -t calls < <(names_declared $library)
    try "$library has the calls of its header, and no others" has_calls $library "${calls[@]}"
    try "the shared library of $library has its name" has_name $library
done
try 'seals have three calls' \
    diff <(names_declared lamphudet_seals) <(printf '%s\n' lamphudet_{read_seal,seals_version,write_seal})
