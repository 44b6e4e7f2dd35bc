# shellcheck shell=bash disable=SC2154
# How make builds, in a copy whose folder has a blank in its name, with an rt that says what rt says and takes the archives
# from where they are. What rt is for is not tried here: that is rt ci's.

copy="$folder/a copy"
archive=$(realpath "${LAMPHUDET_ARCHIVE:-target/staticlib/liblamphudet.a}")
seals_archive=$(realpath "${LAMPHUDET_SEALS_ARCHIVE:-target/staticlib/liblamphudet_seals.a}")
mkdir -p "$copy" "$folder/tools"
# What rt has proved stays behind: an out in each crate, of gigabytes in all.
tar -cf - --no-wildcards-match-slash --exclude='crates/*/out' Makefile tools packaging include man examples crates crates.txt \
    CHANGELOG.md | tar -xf - -C "$copy"
cat > "$folder/tools/rt" << END
#!/bin/sh
[ "\$1" = lib ] || exit 2
[ ! -e "$copy/refused" ] || { echo 'crates/zone/proofs/Laws.antt: not so' && exit 1; }
exports=\$(basename "\$PWD")
# Of what it has proved before it says nothing.
../../tools/built-on "\$exports" | sed '\$d' | grep -vxFf "$folder/proved" \\
    | sed 's/.*/rt: chose --jobs 2 for &\nfn &::of: proved\nlogic=proved functions=1/' >&2
../../tools/built-on "\$exports" >> "$folder/proved"
mkdir -p out
case \$exports in
lamphudet_c) cp "$archive" out/liblamphudet_c.a ;;
lamphudet_seals_c) cp "$seals_archive" out/liblamphudet_seals_c.a ;;
esac
echo "rt: chose --jobs 2 for \$exports"
echo 'logic=proved functions=1'
END
: > "$folder/proved"
chmod +x "$folder/tools/rt"

# With that rt, and what it says kept; and with none, nor a compiler, on a path that has what a Makefile needs besides.
makes() {
    env -u LAMPHUDET_ARCHIVE -u LAMPHUDET_SEALS_ARCHIVE PATH="$folder/tools:$PATH" make -C "$copy" --no-print-directory "$@"
}
made() {
    makes "$@" > "$folder/made" 2>&1
}
mkdir "$folder/bare"
for command in sh make awk cat chmod cmp cut dirname echo find install ln mkdir rm sed sort tail tr; do
    ln -s "$(type -P $command)" "$folder/bare/$command"
done
makes_bare() {
    env -i PATH="$folder/bare" make -C "$copy" --no-print-directory "$@" > /dev/null
}

# The first lines of a build: which crate, and how many are left. How many an archive is built on is counted from crates.txt, by
# every crate that is reached from the line of the crate that exports its calls.
reached() {
    awk -v wanted="$1" '{ sub(/#.*/, ""); split($0, pair, ":"); sub(/ .*/, "", pair[1]); needs[pair[1]] = pair[2] }
        function visit(crate,   list, i, n) {
            if (!(crate in needs) || crate in seen) return
            seen[crate] = 1
            count += 1
            n = split(needs[crate], list, " ")
            for (i = 1; i <= n; i += 1) visit(list[i])
        }
        END { visit(wanted); print count }' crates.txt
}
built_on() {
    (cd "$copy" && tools/built-on "${1}_c")
}
told_of() {
    local n
    n=$(reached "${1}_c")
    echo "lib$1.a: $n crates are proved before it is compiled; target/$1.log has all that is said"
    built_on "$1" | awk -v n="$n" -v before=" $2 " '{ printf "  %s, %d of %d, %d left .. %s\n", $1, NR, n, n - NR,
        NR == n ? "proved and compiled" : index(before, " " $1 " ") ? "proved before" : "proved (some s)" }'
}
# How many seconds each crate took is not compared.
tells() {
    made && diff <(sed -E 's/\([0-9]+ s\)$/(some s)/' "$folder/made") - << END
$(told_of lamphudet '')
$(told_of lamphudet_seals "$(built_on lamphudet | tr '\n' ' ')")
built target/sharedlib/liblamphudet.so
built target/sharedlib/liblamphudet_seals.so
the desk is target/desk; target/desk --help says what it does
the scanner is target/scanner; target/scanner --help says what it does
END
}
# Of every crate but the one that exports the calls, which is compiled.
logged() {
    [[ $(grep -c '^fn .*: proved$' "$copy/target/lamphudet.log") -eq $(($(reached lamphudet_c) - 1)) ]]
}
# The libraries that were built again are these.
built_again() {
    made libraries && [[ $(grep -oE '^liblamphudet(_seals)?\.a' "$folder/made" | tr '\n' ' ') = "$*" ]]
}

try 'a compiler is looked for before anything is proved' refuses 'a C compiler builds' makes CC=no-such-compiler
try 'cargo is looked for before that too' refuses 'cargo is not on the PATH' \
    env -u LAMPHUDET_ARCHIVE -u LAMPHUDET_SEALS_ARCHIVE PATH="$folder/tools:$folder/bare" make -C "$copy" units
try 'nothing was proved' [ ! -e "$copy/target/lamphudet.log" ]
try 'rt is looked for' refuses 'rt is not on the PATH' env -i PATH="$folder/bare" make -C "$copy" CC=true
try 'a build tells which crate it is at' tells
try 'a build keeps what rt says' logged

# Nothing changed: nothing is built, and whoever installs needs neither rt nor a compiler.
try 'a second make' made
try 'a second make builds nothing' diff "$folder/made" - << END
the desk is target/desk; target/desk --help says what it does
the scanner is target/scanner; target/scanner --help says what it does
END
try 'make install without rt and a compiler' makes_bare install PREFIX="$folder/from-copy"
try 'all of it is installed' stands "$folder/from-copy" "$folder/from-copy"

# Other flags of the linker, a quote among them: what is linked is linked again, and archives are not built.
links_again() {
    touch "$folder/before" && made LDFLAGS="$1" \
        && diff <(printf 'built target/sharedlib/lib%s.so\n' lamphudet lamphudet_seals) <(grep '^built \|^lib' "$folder/made") \
        && [[ $copy/target/desk -nt $folder/before && $copy/target/scanner -nt $folder/before ]]
}
try 'other flags of the linker' links_again "-Wl,-rpath,'\$\$ORIGIN/lib'"
try 'and none again' links_again ''

# The shared libraries' name has the first numbers of the version, which stands in the header.
for given in 77.1.2:77 0.77.1:0.77; do
    sed -i "s/^#define LAMPHUDET_VERSION \".*\"\$/#define LAMPHUDET_VERSION \"${given%:*}\"/" "$copy/include/lamphudet.h"
    try "version ${given%:*}" made
    for library in lamphudet lamphudet_seals; do
        try "lib$library.so of ${given%:*} has its numbers" \
            grep -qx "lib$library.so.${given#*:}" <(soname "$copy/target/sharedlib/lib$library.so")
    done
done
cp include/lamphudet.h "$copy/include/lamphudet.h"

# A source that changes, comes or goes: what is built on it is built again.
touch "$copy/crates/c40/src/lib.rt"
try 'c40 has changed, which is of the seals alone' built_again 'liblamphudet_seals.a '
touch "$copy/crates/chip/specs/New.antt"
try 'a definition came, of presentations alone' built_again 'liblamphudet.a '
rm "$copy/crates/chip/specs/New.antt"
try 'a definition went' built_again 'liblamphudet.a '
touch "$copy/crates/zone/proofs/New.antt"
try 'a proof came, of what both are built on' built_again 'liblamphudet.a liblamphudet_seals.a '
touch "$copy/crates/demands/specs/New.antt"
try 'a theorem came, which is above both' built_again ''

# A refused build fails, and shows why.
touch "$copy/refused" "$copy/crates/lent/src/lib.rt"
try 'a refused build' refuses 'crates/zone/proofs/Laws.antt: not so' makes
rm "$copy/refused"
try 'is tried again' built_again 'liblamphudet.a liblamphudet_seals.a '

# Archives that were built elsewhere.
try 'no such archive' refuses 'which LAMPHUDET_ARCHIVE names' make desk LAMPHUDET_ARCHIVE=no-such-archive.a
try 'a blank in the name of an archive' refuses 'ARCHIVE is empty or has a blank' make desk LAMPHUDET_ARCHIVE='two words.a'
for host in DESK SCANNER; do
    try "a blank in $host" refuses "$host is empty or has a blank" make help "$host=$folder/two words"
    try "an empty $host" refuses "$host is empty or has a blank" make help "$host="
done
elsewhere_taken() {
    env -u LAMPHUDET_ARCHIVE -u LAMPHUDET_SEALS_ARCHIVE make -C "$copy" desk DESK="$folder/desk-elsewhere" \
        LAMPHUDET_ARCHIVE="$archive" > /dev/null && [[ -x $folder/desk-elsewhere ]]
}
try 'an archive that was built elsewhere is taken' elsewhere_taken
try 'make help' grep -q 'make uninstall' <(make help)
