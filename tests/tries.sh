# shellcheck shell=bash
# What the tests outside Rust share: a folder that goes when they end, the count, and tests that are commands. Whoever takes
# it in has gone to the repository's top, and gives the name of the folder in tests whose cases are tried.
tested=$1
passed=0
failed=0
folder=$(mktemp -d) || exit 2
trap 'rm -rf "$folder"' EXIT

# The version, which stands in the header.
# shellcheck disable=SC2034
version=$(sed -n 's/^#define LAMPHUDET_VERSION "\(.*\)"$/\1/p' include/lamphudet.h)
# What a shared library's name has of it: the first two numbers while the first is 0, then the first alone.
so_version() {
    sed -E 's/^(0\.[0-9]+|[1-9][0-9]*)\..*/\1/' <<< "$1"
}

# The calls of a header's library as it declares them, each in one line; those that the header defines itself end in {. What
# lamphudet_field is made of is left out.
declared() {
    tr '\n' ' ' < "include/$1.h" | sed 's/  */ /g' \
        | grep -oE '(lamphudet_[a-z]+ |uint32_t |const char \*)lamphudet_[a-z_]+\([a-z][^()]*\)( \{|;)' \
        | grep -v 'lamphudet_part_at\|lamphudet_long_number' | LC_ALL=C sort
}

# A test that is a command. What it prints is shown.
try() {
    local name=$1
    shift
    if "$@"; then
        passed=$((passed + 1))
    else
        echo "$tested: not so: $name"
        failed=$((failed + 1))
    fi
}

# A command that must fail, for a reason that it prints.
refuses() {
    local reason=$1
    shift
    if "$@" > "$folder/refused" 2>&1; then
        echo "not refused: $*"
        return 1
    fi
    grep -qF -- "$reason" "$folder/refused" || { cat "$folder/refused" && return 1; }
}

# Every case, then the count.
all_cases() {
    local cases
    for cases in "tests/$tested/cases"/*.sh; do
        # shellcheck source=/dev/null
        . "$cases"
    done
    echo "$passed passed, $failed failed"
    [[ $failed -eq 0 ]]
}
