#!/usr/bin/env bash
# Whether tshark's fields are a ledger's lines, in each way in which tshark shows or writes them.
#
#   wireshark/check.sh RECORDING LEDGER A|B      the recording of one network: all of its lines, in its order
#   wireshark/check.sh RECORDING LEDGER capture  what `watch --capture` wrote: the lines that keep bytes
#   wireshark/check.sh RECORDING LEDGER part     any frames of both networks, as `cut` writes them: for each another line of the ledger
#
# For each way one line: 'same' or 'DIFFERENT'. The status is 0 where all are the same. Takes the plugin beside this file,
# else the one that is installed.
set -euo pipefail
recording=$1 ledger=$2 frames=$3
folder=$(dirname "$(readlink -f "$0")")
work=$(mktemp -d)
trap 'rm -rf "$work"' EXIT
status=0
columns=(frame.time_epoch afdx.tap afdx.number afdx.vl afdx.sn afdx.class afdx.policing afdx.integrity afdx.redundancy
    afdx.kept afdx.mask)

# tshark with the plugin and the ledger, on a recording; by timestamp, or as the recording of one network.
with_ledger() {
    local how=timestamp given=()
    case $frames in A | B) how=$frames ;; esac
    if [ -f "$folder/afdx.lua" ]; then given=(-X "lua_script:$folder/afdx.lua"); fi
    tshark -n -r "$1" "${given[@]}" -o "afdx.ledger:$ledger" -o "afdx.tap:${2:-$how}" "${@:3}" 2> "$work/told" ||
        { cat "$work/told" >&2; return 1; }
}

# tshark's words for showing the fields of a line, separated by tabs.
as_fields() {
    printf '%s\n' -T fields
    printf -- '-e\n%s\n' "${columns[@]}"
}

# The same as columns of the packet list.
as_columns() {
    local format='' column
    for column in "${columns[@]}"; do format+="${format:+,}\"$column\",\"%Cus:$column:0:R\""; done
    printf '%s\n' -T tabs -o "gui.column.format:$format"
}

# The lines in the ledger's order, which a part of both recordings may not have; those of a whole one stay as they come.
in_order() {
    if [ "$frames" = part ]; then LC_ALL=C sort; else cat; fi
}

# The ledger's lines of those fields. A column has spaces around what it shows; a foreign frame has no link and no number.
lines() {
    awk -F '\t' '{
        for (i = 1; i <= 11; i++) gsub(/ /, "", $i)
        time = $1
        sub(/\./, "", time)
        sub(/^0+/, "", time)
        if ($6 ~ /^(cut|runt|oversize|foreign)$/) $4 = $5 = ""
        line = time == "" ? "0" : time
        for (i = 2; i <= 10; i++) line = line " " ($i == "" ? "-" : $i)
        print line " " substr($11, 3)
    }' | in_order
}

# The ledger's lines of frames, without the lengths of version 3.
held() {
    grep -E '^[0-9]+ [AB] ' "$ledger" | cut -d ' ' -f 1-11
}

# The ledger's lines of the recording's frames, as the ledger has them.
expected() {
    case $frames in
        A | B) held | grep -E "^[0-9]+ $frames " | sort -s -n -k 3,3 ;;
        capture) held | grep -E ' [0-9]+ [0-9a-f]{2}$' ;;
        part) held | grep -F -x -f "$work/fields" | in_order ;;
        *) echo 'usage: check.sh RECORDING LEDGER A|B|capture|part' >&2; exit 2 ;;
    esac
}

# Says whether two files are the same.
compare() {
    if cmp -s "$2" "$3"; then
        printf '%s: same, %d lines\n' "$1" "$(wc -l < "$2")"
    else
        printf '%s: DIFFERENT\n' "$1"
        diff "$2" "$3" | head -n 4 || true
        status=1
    fi
}

# The lines that end judgement with a word.
ending_with() {
    awk -v word="$1" '{ for (i = 9; $i == "-"; i--); if ($i == word) print }'
}

mapfile -t fields < <(as_fields)
mapfile -t list < <(as_columns)
with_ledger "$recording" '' "${fields[@]}" | lines > "$work/fields"
expected > "$work/expected"
compare '-T fields' "$work/expected" "$work/fields"
with_ledger "$recording" '' -2 "${fields[@]}" | lines > "$work/got"
compare '-2' "$work/expected" "$work/got"
with_ledger "$recording" '' "${list[@]}" | lines > "$work/got"
compare 'columns' "$work/expected" "$work/got"
with_ledger "$recording" '' -2 "${list[@]}" | lines > "$work/got"
compare '-2 columns' "$work/expected" "$work/got"
for word in $(awk '{ for (i = 9; $i == "-"; i--); if (!seen[$i]++) print $i }' "$work/expected"); do
    ending_with "$word" < "$work/expected" > "$work/wanted"
    with_ledger "$recording" '' -Y "afdx.verdict == \"$word\"" "${fields[@]}" | lines > "$work/got"
    compare "-Y $word" "$work/wanted" "$work/got"
    with_ledger "$recording" '' -Y "afdx.verdict == \"$word\"" -w "$work/written"
    with_ledger "$work/written" timestamp "${fields[@]}" | lines > "$work/got"
    compare "-w $word" "$work/wanted" "$work/got"
done
exit "$status"
