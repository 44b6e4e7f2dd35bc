# shellcheck shell=bash
# What the tests of the C hosts in examples share. Whoever takes it in has gone to the repository's top, and gives the host's
# name and the build that is wanted: none, the host as it is built for use; or sanitized, with the compiler's watch over
# addresses and undefined behaviour, or over what SANITIZERS names.
host=$1
# shellcheck source=tests/tries.sh
. tests/tries.sh "$host"

# What the sanitizers find ends the host, with a status that no case expects.
export ASAN_OPTIONS=exitcode=99 UBSAN_OPTIONS=exitcode=99
case ${2-} in
'') flags='-O2' ;;
sanitized) flags="-O1 -g -fsanitize=${SANITIZERS:-address,undefined} -fno-sanitize-recover=all" ;;
*) echo "$host: no such build: $2" && exit 2 ;;
esac
if ! make --silent "$host" "${host^^}=$folder/$host" CFLAGS="$flags -Werror" > /dev/null; then
    echo "$host: it does not build with $flags"
    echo '0 passed, 1 failed'
    exit 1
fi
passed=1

# Holds the host to an exit status, to what it should print, and to what it should say on standard error; what it is lent on
# standard input goes through.
answers() {
    local name=$1 status=$2 output=$3 errors=$4 given
    shift 4
    "$folder/$host" "$@" > "$folder/output" 2> "$folder/errors"
    given=$?
    if [[ $given -ne $status ]]; then
        echo "$host: $name: exit status $given, and not $status"
    elif ! diff "$output" "$folder/output" > "$folder/difference"; then
        echo "$host: $name: prints otherwise:"
        cat "$folder/difference"
    elif ! diff "$errors" "$folder/errors" > "$folder/difference"; then
        echo "$host: $name: says otherwise on standard error:"
        cat "$folder/difference"
    else
        passed=$((passed + 1))
        return
    fi
    failed=$((failed + 1))
}

# What it should print, and not a word on standard error.
holds() {
    local name=$1 status=$2 output=$3
    shift 3
    answers "$name" "$status" "$output" /dev/null "$@"
}

# One line on standard error, behind the host's name, and nothing printed.
says() {
    local name=$1 status=$2 line=$3
    shift 3
    answers "$name" "$status" /dev/null <(echo "$host: $line") "$@"
}

# The same of a command line that is wrong: it is told what is wrong, and where help is.
is_misused() {
    local name=$1 line=$2
    shift 2
    says "$name" 2 "$line; $host --help says more" "$@"
}

# The digits of a file of hex, without its remarks, and octets given in hex.
hex_of() {
    sed '/^#/d' "$1" | tr -d ' \n'
}
octets() {
    # The escapes are the format's own.
    # shellcheck disable=SC2059
    printf "$(sed 's/../\\x&/g' <<< "$1")"
}
octets_of() {
    octets "$(hex_of "$1")"
}
