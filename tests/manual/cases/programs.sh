# shellcheck shell=bash disable=SC2154
# The pages of section 1 have the options that the programs have.

if ! make --silent desk scanner DESK="$folder/desk" SCANNER="$folder/scanner" > /dev/null; then
    echo 'manual: desk and scanner do not build'
    failed=$((failed + 1))
fi
said() {
    "$folder/$1" --help | grep -oE -- '(^|[^a-z-])--?[a-z]+' | grep -oE -- '-+[a-z]+' | grep -vx -- '-n' | sort -u
}
in_page() {
    grep -oE '(Fl -?[a-z]+|, h$)' "man/$1.1" | sed 's/^Fl /-/; s/^, /-/' | sort -u
}
for program in desk scanner; do
    try "$program says its options" [ "$(said $program | wc -l)" -gt 5 ]
    try "man/$program.1 has them" diff <(said $program) <(in_page $program)
done

# The desk's commands.
commands_in_page() {
    sed -n 's/^\.It Cm //p' man/desk.1 | sort
}
commands_said() {
    "$folder/desk" --help | sed -n 's/^\(usage:\|      \) desk \([a-z]*\).*/\2/p' | sort
}
try 'man/desk.1 has every command' diff <(commands_said) <(commands_in_page)
