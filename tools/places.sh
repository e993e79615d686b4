#!/usr/bin/env bash
# Lists the lines of the crates' sources where a form of the older language may stand, one list for each point of docs/DESIGN-PASS.md.
# `tools/places.sh N` prints the lines of point N, `tools/places.sh` how many lines each list has. A list holds candidates: which of them are
# places of the point is said on that page.
set -u
cd "$(dirname "${BASH_SOURCE[0]}")/.." || exit 1

found() {
    git grep -nE "$1" -- 'crates/*/src/*.rt' | grep -vE ':[0-9]+: *(///|//!)'
}

lines() {
    case "$1" in
    # enums; flags kept in a field; numbers for kinds, as parameters, fields and patterns; 0 for `None`
    1) found '\benum \w+|: bool,$|\b(scheme|turn|ty|tag|sort|face)s?: (u8|u64)\b|^ +\(?(_|[0-9]+|[A-Z]{3,})(, (_|[0-9]+))?\)? .*=>|^ +\(?(_|[0-9]+|[A-Z]{3,})(, (_|[0-9]+))?\)? =>|\{ 0 \} else' ;;
    # functions of one crate whose names are pairs, or that two crates name alike
    2) git grep -hoE '\bfn \w+' -- 'crates/*/src/*.rt' | sort | uniq -c | awk '$1 > 1' ;;
    # loops
    3) found '\bfor .+ in |\bwhile \w|\bloop \{' ;;
    # casts, words and texts made by hand, errors wrapped by hand
    4) found ' as (u8|u16|u32|u64|usize)\b|fn \w+_(name|text|word)\b|fn (line|text|sentence|number|shape_of)\b|format!|Err\(\w+::\w+\(\w+\)\)|=> return|Some\(\w+\) => (Ok|Some|Answer)' ;;
    # clauses that stand three times or more, with how often
    5) git grep -hoE '(requires|ensures) (\w+ )?\{[^}]*\}' -- 'crates/*/src/*.rt' | sed -E 's/^(requires|ensures) (\w+ )?\{ *//; s/ *\}$//' | sort | uniq -c | awk '$1 > 2' ;;
    # lists with a length beside them, fixed arrays, indexed reads and writes
    6) found '\[[^]]*; [0-9]+\]|count: |at: usize|\w\[[a-z][^]]*\]|Vec<' ;;
    # what is chosen by a kind, and functions handed over
    7) found 'match \w*\.?(shape|step|kind|tag|turn|sort)|\bimpl Fn|\bdyn |: fn\(|<[A-Z]\w*: Fn' ;;
    # lines of proofs
    8) git ls-files -- 'crates/*/proofs/*.antt' | xargs wc -l | awk '$2 != "total"' ;;
    esac
}

if [ $# -gt 0 ]; then
    lines "$1"
else
    for point in 1 2 3 4 5 6 7 8; do
        echo "point $point: $(lines $point | wc -l)"
    done
fi
