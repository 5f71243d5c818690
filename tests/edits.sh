#!/usr/bin/env bash
# Each wrong program of crates/*/must-fail is refused for itself. A file there may hold several, each a part of its own:
#
#     # label: what is true of the right program
#     refused: what the wrong one falls on: the function, as the check names it (rows::load), or the file of laws (proofs/Trails.antt)
#     file: .., old: .., new: ..   as rt takes them
#
# rt ci asks only that the crate with all parts of a file is refused, and leaves no log. So here each file is applied to a copy of its crate,
# which is checked over what the check of the crate as it stands proved. A check does not stop at an error, and a function is proved from its
# own code and the contracts of what it calls, so that each wrong function has errors of its own in the one check of its file. Where a place
# has none, as a function whose callee fell before it was tried, its part is tried alone.
#
# Asked is that each place has an error of its own: a fact that does not hold. It is none that something below is not proved, or that a proof
# names what is no longer there or cannot be read.
#
# tests/edits.sh [NAME..]: of these crates, or of all. JOBS=N: so many checks at once, and not as many as there are processors.
# Their logs stay in target/must-fail/NAME, or below the folder TRIED.
set -euo pipefail
cd "$(dirname "$0")/.."
tried=${TRIED:-$PWD/target/must-fail}
at_once=${JOBS:-$(nproc)}
[ $# != 0 ] || set -- $(find crates -path '*/must-fail/*.edit' | cut -d/ -f2 | sort -u)

room=$(mktemp -d)
trap 'rm -rf "$room"' EXIT
mkdir -p "$room/base/crates" "$room/kept" "$room/said"

# What is said of a file goes to a file of its own, since several are tried at once.
say() { echo "$2" >> "$room/said/$1"; }

# Runs a function beside the others that run, once there is room for it.
beside() {
    while [ "$(jobs -rp | wc -l)" -ge "$at_once" ]; do wait -n || true; done
    "$@" &
}

# A check of the crate NAME in the folder, to a log. It proves nothing that stands in its out/.
check() { (cd "$1/crates/$2" && rt check --jobs 1) > "$3" 2>&1; }

# The crates as they stand. Each named one is checked there, over the libraries below it; what that kept is set aside for its edits.
cp crates.txt "$room/base"
for crate in crates/*/; do
    mkdir "$room/base/$crate"
    for part in src specs proofs; do
        [ ! -d "$crate$part" ] || cp -R "$crate$part" "$room/base/$crate"
    done
done

stands() {
    check "$room/base" "$1" "$tried/$1/.log" || say "$1" "crates/$1: it is not proved as it stands: $tried/$1/.log"
}

# The crates in a folder of their own, the crate NAME to be written to, with what its check kept, and the libraries as built.
copied() {
    cp -Rl "$room/base" "$2"
    rm -r "$2/crates/$1"
    cp -R "$room/base/crates/$1" "$2/crates"
    mkdir -p "$2/crates/$1/out"
    cp -R "$room/kept/$1" "$2/crates/$1/out/incremental"
}

# Applies a part to the crate in the folder.
apply() {
    local file='' old='' text line
    while IFS= read -r line; do
        case $line in
            'file: '*) file=$1/${line#file: } ;;
            'old: '*) old=${line#old: } ;;
            'new:'*)
                line=${line#new:}
                text=$(cat "$file" && echo .) || return 1
                [[ $text == *"$old"* && ${text#*"$old"} != *"$old"* ]] || return 1
                text=${text/"$old"/"${line# }"}
                printf %s "${text%.}" > "$file"
                ;;
        esac
    done < "$2"
}

# Whether the log has an error of the place's own that is a fact.
own() {
    local log=$1 place=$2 errors path last
    errors=$(sed -n 's/^\(\.\/\)\?\(proofs\/[^:]*\):[0-9]*:[0-9]*: error: \(`[^`]*`: .*\)/\2 \3/p' "$log" |
        grep -v -e 'was not admitted' -e 'can be named from here' -e 'has no field' -e 'is not in scope' -e 'is no name' -e ' has no `' || true)
    case $place in
        *.antt) grep -qF "$place " <<< "$errors" ;;
        *)
            path=${place#*::} path=${path//:://} last=${path##*/}
            # The functions of a cycle share a folder, where each answer begins with the name of its function, unless it is the only one.
            grep -q "^fn $place: no proof: .*\`search\` did not prove " "$log" || grep -q "^proofs/$path/[A-Za-z]*\.antt " <<< "$errors" ||
                grep -q "^proofs/${path%"$last"}+\($last/[A-Za-z]*\.antt \|[a-z0-9_]*/[A-Za-z]*\.antt \`$last-\)" <<< "$errors"
            ;;
    esac
}

# Tries a file of wrong programs, all parts at once and then alone what has no error of its own.
try() {
    local name=$1 edit=$2 label part place place_of=() left=()
    label=$(basename "$edit" .edit)
    local at=$room/$name.$label log=$tried/$name/$label.log
    mkdir "$at"
    awk -v at="$at" '/^# [a-z0-9_]*: / { part = at "/" ++n ".part" } part { print > part }' "$edit"
    copied "$name" "$at/all"
    for part in "$at"/*.part; do
        apply "$at/all/crates/$name" "$part" || say "$name.$label" "$edit: cannot be applied: $(head -n 1 "$part")"
    done
    ! check "$at/all" "$name" "$log" || say "$name.$label" "$edit: the crate is proved with it"
    rm -rf "$at/all"
    for part in "$at"/*.part; do
        place=$(sed -n 's/^refused: //p' "$part")
        ! own "$log" "$place" || continue
        label=$(sed -n '1s/^# \([a-z0-9_]*\): .*/\1/p' "$part")
        log=${log%.log}.$label.log
        copied "$name" "$at/$label"
        apply "$at/$label/crates/$name" "$part" || true
        check "$at/$label" "$name" "$log" || true
        own "$log" "$place" || say "$name.$(basename "$edit" .edit)" "$edit: $label: $place has no error of its own"
        rm -rf "${at:?}/$label"
        log=$tried/$name/$(basename "$edit" .edit).log
    done
    rm -rf "$at"
}

count=0
for name; do
    rm -rf "${tried:?}/$name"
    mkdir -p "$tried/$name"
    beside stands "$name"
done
wait
for name; do
    [ -e "$room/said/$name" ] || mv "$room/base/crates/$name/out/incremental" "$room/kept/$name"
done
for name; do
    crate=crates/$name
    parts=$(cat "$crate"/must-fail/*.edit)
    twice=$(sed -n 's/^# \([a-z0-9_]*\): .*/\1/p' <<< "$parts" | sort | uniq -d)
    [ -z "$twice" ] || say "$name" "$crate: a label stands twice: $twice"
    # A check of a crate without code is cheap, and a wrong definition there may reach every law, so that few share a file. A crate with code
    # has two files, and one more where document 01 calls a program closest to passing.
    files=$(find "$crate/must-fail" -name '*.edit' | wc -l)
    ! grep -q '^ *\(pub .*\)\?fn ' "$crate"/src/*.rt || [ "$files" -le 3 ] || say "$name" "$crate: more than three files of wrong programs"
    for edit in "$crate"/must-fail/*.edit; do
        mapfile -t places < <(sed -n 's/^refused: //p' "$edit")
        count=$((count + ${#places[@]}))
        [ "${#places[@]}" != 0 ] || say "$name" "$edit: no line 'refused: PLACE'"
        [ "$(grep -c '^# [a-z0-9_]*: ' "$edit")" = "${#places[@]}" ] || say "$name" "$edit: a label for each line 'refused: PLACE', and no other"
        [ "$(printf '%s\n' "${places[@]}" | sort -u | wc -l)" = "${#places[@]}" ] || say "$name" "$edit: a place is named twice"
        for place in "${places[@]}"; do
            [ -f "$crate/$place" ] || grep -q "^fn $place: " "$tried/$name/.log" || say "$name" "$edit: there is no $place"
        done
        [ ! -d "$room/kept/$name" ] || beside try "$name" "$edit"
    done
done
wait
said=$(cat "$room"/said/* 2> /dev/null || true)
[ -z "$said" ] || { echo "$said"; exit 1; }
echo "$count wrong programs, each refused for itself"
