# What the demos share: shows STATUS WORDS .. shows a command of the host and what it prints. The command must end with the
# status that its sample should give. Whoever takes this in has set program, the host's file, and name, what it is called.
# shellcheck shell=sh disable=SC2154
shows() {
    status=$1
    shift
    echo "\$ $name $*"
    "$program" "$@"
    given=$?
    if [ "$given" -ne "$status" ]; then
        echo "the $name ended with status $given, and not $status"
        exit 1
    fi
}
