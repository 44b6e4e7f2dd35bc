# shellcheck shell=bash disable=SC2154
# Hosts, built from what is installed with what pkg-config says, over the archives and over the shared libraries.

flags_of() {
    PKG_CONFIG_PATH="$folder/usr/lib/pkgconfig" pkg-config --cflags --libs "$1"
}

# Builds and runs a host of a library, with the compiler and the language given.
over_shared() {
    local library=$1 source=$2 flags
    shift 2
    flags=$(flags_of "$library") || return 1
    # The flags are several words.
    # shellcheck disable=SC2086
    "$@" -Wall -Wextra -Wpedantic -Werror -o "$folder/host" "tests/install/hosts/$source" -x none $flags || return 1
    LD_LIBRARY_PATH="$folder/usr/lib" "$folder/host"
}
over_archives() {
    local library=$1 source=$2 flags
    shift 2
    flags=$(flags_of "$library") || return 1
    # shellcheck disable=SC2086
    "$@" -Wall -Wextra -Wpedantic -Werror -o "$folder/host" "tests/install/hosts/$source" -x none \
        -Wl,-Bstatic $flags -Wl,-Bdynamic || return 1
    ! objdump -p "$folder/host" | grep 'NEEDED.*lamphudet' || return 1
    "$folder/host"
}

sanitized="-g -fsanitize=${SANITIZERS:-address,undefined} -fno-sanitize-recover=all"
for pair in lamphudet:{digest,record,presentation,inside,details,list,field,order,flips}.c \
    lamphudet_seals:{seal,written,version}.c; do
    library=${pair%:*} source=${pair#*:}
    for over in over_archives over_shared; do
        try "$source as a C99 host, $over" $over "$library" "$source" cc -std=c99 -x c
        # The flags are several words.
        # shellcheck disable=SC2086
        try "$source as a C99 host, $over, sanitized" $over "$library" "$source" cc -std=c99 $sanitized -x c
        if command -v c++ > /dev/null; then
            try "$source as a C++17 host, $over" $over "$library" "$source" c++ -std=c++17 -x c++
        else
            echo "install: no C++ compiler, so $source was not tried as a C++ host"
        fi
    done
done

# A struct that goes in by value is where compilers may differ.
for over in over_archives over_shared; do
    if command -v clang > /dev/null; then
        try "written.c as clang compiles it, $over" $over lamphudet_seals written.c clang --target=x86_64-linux-gnu -std=c99 -x c
    else
        echo 'install: no clang, so written.c was tried with one C compiler alone'
    fi
done

# Seals stand alone: a host that makes their call and no other needs no other library.
printf '#include <lamphudet_seals.h>\nint main(void)\n{\n    return lamphudet_read_seal(1, 0, 0, 0, 0).number != %s;\n}\n' \
    LAMPHUDET_REFUSED_SEAL_HEADER > "$folder/alone.c"
alone() {
    cc -std=c99 -Wall -Wextra -Wpedantic -Werror -I"$folder/usr/include" -o "$folder/host" "$folder/alone.c" \
        -L"$folder/usr/lib" "$@" && LD_LIBRARY_PATH="$folder/usr/lib" "$folder/host"
}
try 'a host over the archive of seals alone' alone -Wl,-Bstatic -llamphudet_seals -Wl,-Bdynamic
try 'a host over the shared library of seals alone' alone -llamphudet_seals

# The desk and the scanner that are installed need nothing beside them.
try 'the installed desk' "$folder/usr/bin/desk" text --file examples/desk/samples/t3.text > "$folder/desk"
try 'the installed scanner' "$folder/usr/bin/scanner" --hex examples/scanner/samples/seal.hex > "$folder/scanner"
