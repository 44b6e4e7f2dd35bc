#!/bin/sh
# Makes every presentation here again with OpenSSL's DER encoder, and lists what was made with its DER reader.
#
#     ./remake.sh          makes the .hex files again
#     ./remake.sh check    makes them aside and tests that they are the ones kept here
#     ./remake.sh list     prints what the reader finds in each security object, with the offset of each element
#
# A presentation is com.hex, or the EF.COM that the line `# com:` names (made by hand: 5F01 is not DER, so no DER encoder
# writes it), the security object of its .conf, and the group files that the line `# lends:` names, each made from its own
# .conf.
# source-000 has what that document prints, and is not made.
set -eu
cd "$(dirname "$0")"
made=$(mktemp -d)
trap 'rm -r "$made"' EXIT

for group in group1 wrong1 group2 group16; do
    openssl asn1parse -genconf $group.conf -noout -out "$made/$group"
    digest=$(openssl dgst -sha256 -r "$made/$group" | cut -d' ' -f1)
    grep -qx "$group = $digest" digests.conf || { echo "digests.conf has another digest of $group"; exit 1; }
done
digest=$(tail -c +3 "$made/group1" | openssl dgst -sha256 -r | cut -d' ' -f1)
grep -qx "inside1 = $digest" digests.conf || { echo 'digests.conf has another digest of the inside of group1'; exit 1; }

for conf in $(grep -l '^# lends:' *.conf); do
    name=${conf%.conf}
    com=$(sed -n 's/^# com: //p' "$conf")
    openssl asn1parse -genconf "$conf" -noout -out "$made/object"
    # OpenSSL's reader goes through all of it. What it cannot read ends this script.
    openssl asn1parse -inform DER -in "$made/object" > "$made/listing"
    {
        tr -d '\n' < "${com:-com}.hex"
        for part in object $(sed -n 's/^# lends: //p' "$conf"); do
            od -An -v -tx1 "$made/$part" | tr -d ' \n'
        done
    } | fold -w 100 > "$made/hex"
    echo >> "$made/hex"
    case ${1-} in
    check) cmp "$made/hex" "$name.hex" ;;
    list) echo "$name" && cat "$made/listing" ;;
    *) cp "$made/hex" "$name.hex" ;;
    esac
done
