# shellcheck shell=bash disable=SC2154
# The pages, as mandoc reads them. It finds no manual page that is not installed here, which is no fault of theirs.

lints() {
    ! mandoc -T lint -W style "$1" 2>&1 | grep -v 'referenced manual not found\|outdated mandoc.db\|^$' | grep .
}
for page in man/*.[13]; do
    if command -v mandoc > /dev/null; then
        try "$page is sound" lints "$page"
    else
        echo "manual: no mandoc, so $page was not linted (on Debian: apt install mandoc)"
    fi
done
