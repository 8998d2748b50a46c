#!/bin/sh
# Tries further edits, which the prover must refuse:
#
#     checks/edits.sh [--jobs N] [--since COMMIT] NAME.. | --all
#
# NAME is a crate with a folder in checks/edits; the gate tries those in crates/NAME/must-fail, and these stand apart to
# keep it short. --since leaves out the crates that are, with all that they stand on, as at COMMIT. At most N crates are
# tried at a time (2 if it is not given), each in a copy of the tree: what is killed leaves the work tree as it was.
set -u
top=$(cd "$(dirname "$0")/.." && pwd)
edits=$top/checks/edits

# The copy of one crate's try, which `xargs` runs at the end of this file.
if [ "${1-}" = --one ]; then
    room=$(mktemp -d "${TMPDIR:-/tmp}/c6x-edits-XXXXXX") || exit 1
    trap 'rm -rf "$room"' EXIT
    trap 'exit 1' HUP INT TERM
    mkdir "$room/crates"
    cp "$top/crates.txt" "$top/HANDLES" "$room/"
    for crate in "$top"/crates/*; do
        to=$room/crates/$(basename "$crate")
        mkdir "$to"
        for part in src specs proofs; do
            [ -d "$crate/$part" ] && cp -r "$crate/$part" "$to/"
        done
    done
    mkdir "$room/crates/$2/must-fail"
    cp "$edits/$2"/*.edit "$room/crates/$2/must-fail/"
    # `rt ci` takes what an earlier run proved of the crates below, where `rt must-fail` proves them again.
    (cd "$room" && RT_JOBS=1 rt ci "$2" 2>&1) >"$room/said"
    status=$?
    tried=$(ls "$edits/$2"/*.edit | wc -l)
    refused=$(grep -c ': refused, as it must be' "$room/said")
    grep -E "must-fail|NOT PROVED|BAD EDIT|NOT TRIED|refused" "$room/said"
    echo "$2: $refused of $tried refused" | tee -a "$C6X_EDITS_COUNTS"
    [ $status -eq 0 ] && [ "$refused" -eq "$tried" ]
    exit
fi

jobs=2 since='' names=''
usage() {
    echo "checks/edits.sh [--jobs N] [--since COMMIT] NAME.. | --all, a NAME one of: $(ls "$edits" | tr '\n' ' ')" >&2
    exit 2
}
while [ $# -gt 0 ]; do
    case $1 in
    --jobs) [ $# -gt 1 ] || usage; jobs=$2; shift ;;
    --since) [ $# -gt 1 ] || usage; since=$2; shift ;;
    --all) names="$names $(ls "$edits")" ;;
    *) [ -d "$edits/$1" ] || usage; names="$names $1" ;;
    esac
    shift
done
[ -n "$names" ] || usage

# The crates that changed since the commit, or whose edits did, and those that stand on a crate that changed.
if [ -n "$since" ]; then
    git -C "$top" rev-parse --verify --quiet "$since^{commit}" >/dev/null || { echo "checks/edits.sh: no commit $since" >&2; exit 2; }
    changed=$( (git -C "$top" diff --name-only "$since"; git -C "$top" ls-files --others --exclude-standard) |
        sed -nE 's,^crates/([^/]*)/(src|specs|proofs)/.*,crate \1,p; s,^checks/edits/([^/]*)/.*,edits \1,p' | sort -u)
    names=$(printf '%s\n' $names | awk -v changed="$changed" '
        BEGIN {
            count = split(changed, lines, "\n")
            for (i = 1; i <= count; i++) { split(lines[i], word, " "); is_tried[word[2]] = 1; if (word[1] == "crate") is_new[word[2]] = 1 }
        }
        FILENAME != "-" { sub(/#.*/, ""); if (split($0, side, ":") == 2) { split(side[1], first, " "); below[first[1]] = side[2] }; next }
        { wanted[++last] = $1 }
        END {
            do {
                grew = 0
                for (name in below) if (!(name in is_new)) {
                    many = split(below[name], under, " ")
                    for (i = 1; i <= many; i++) if (under[i] in is_new) { is_new[name] = 1; grew = 1 }
                }
            } while (grew)
            for (i = 1; i <= last; i++) if (wanted[i] in is_new || wanted[i] in is_tried) print wanted[i]
        }' "$top/crates.txt" -)
    [ -n "$names" ] || { echo "0 of 0 further edits refused: no crate that has any changed since $since, and none below it"; exit 0; }
fi

C6X_EDITS_COUNTS=$(mktemp "${TMPDIR:-/tmp}/c6x-edits-counts-XXXXXX")
export C6X_EDITS_COUNTS
trap 'rm -f "$C6X_EDITS_COUNTS"' EXIT
trap 'exit 1' HUP INT TERM
printf '%s\n' $names | sort -u | xargs -P "$jobs" -n 1 "$0" --one
status=$?
awk '{ refused += $2; tried += $4 } END { print refused + 0 " of " tried + 0 " further edits refused, of " NR " crates" }' "$C6X_EDITS_COUNTS"
[ $status -eq 0 ]
