# shellcheck shell=bash disable=SC2154,SC2016
# The version in headers, Makefile, pkg-config files and pages is that of the definition.
definition=crates/version/specs/Version.antt

part_of() {
    sed -n "s/^$1 = \([0-9]*\)$/\1/p" $definition
}
defined_version="$(part_of major).$(part_of minor).$(part_of patch)"
defined_number=$((10000 * $(part_of major) + 100 * $(part_of minor) + $(part_of patch)))

try 'the definition has a version' grep -qxE '[0-9]+\.[0-9]{1,2}\.[0-9]{1,2}' <<< "$defined_version"
try 'the number is worked out as here' grep -qx 'version_number = 10000 \* major + 100 \* minor + patch' $definition
try 'the header has the version' [ "$version" = "$defined_version" ]
try 'the header has its number' grep -qx "#define LAMPHUDET_VERSION_NUMBER $defined_number" include/lamphudet.h

# What make works out, for what it installs.
made_of() {
    printf 'include Makefile\nshow:\n\t@echo $(VERSION) $(SO_VERSION)\n' > "$folder/shows"
    make --silent -f "$folder/shows" show
}
try 'make has the version, and what of it stands in the names' \
    diff <(made_of) <(echo "$defined_version $(so_version "$defined_version")")
for library in lamphudet lamphudet_seals; do
    try "$library.pc takes it from make" grep -qx 'Version: @VERSION@' packaging/$library.pc.in
done
try 'seals ask for the other library of their version' grep -qx 'Requires: lamphudet = @VERSION@' packaging/lamphudet_seals.pc.in

# Every name of a shared library that a header or a page has.
names_given() {
    grep -hoE 'liblamphudet(_seals)?\.so(\.[0-9]+)+' include/*.h man/*.3 README.md | sort -u
}
try 'headers and pages have the names of the shared libraries' \
    diff <(names_given) <(printf "liblamphudet%s.so.$(so_version "$defined_version")\n" '' _seals)

# The page of changes begins with it, and goes down.
versions_changed() {
    sed -nE 's/^## ([0-9]+\.[0-9]+\.[0-9]+).*/\1/p' CHANGELOG.md
}
try 'CHANGELOG.md begins with the version' [ "$(versions_changed | head -n 1)" = "$defined_version" ]
try 'CHANGELOG.md has the newest first' diff <(versions_changed) <(versions_changed | sort -ruV)

# Every request that landed is in it.
landed() {
    for note in docs/requests/*.md; do basename "$note" .md; done
}
requests_changed() {
    grep -oE '\b20[0-9]{2}-[0-9]{2}\b' CHANGELOG.md | sort -u
}
try 'CHANGELOG.md has every request that landed' diff <(landed) <(requests_changed)
