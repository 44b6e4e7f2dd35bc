# shellcheck shell=bash disable=SC2154
# Every sample, accepted or refused as its remark says.

for sample in "$samples"/*.hex; do
    name=$(basename "$sample" .hex)
    status=1
    if grep -q '^# Accepted: ' "$sample"; then
        status=0
    fi
    holds "the sample $name" $status "$expected/$name" --hex "$sample"
done

# Of several the worst counts, and each is shown.
cat "$expected/seal" "$expected/24-dc" "$expected/version-03" > "$folder/several"
holds 'several samples' 1 "$folder/several" --hex "$samples/seal.hex" "$samples/24-dc.hex" "$samples/version-03.hex"
