#!/usr/bin/env bash
# Says on standard error how far a first build of the program is: rt run 2>&1 > /dev/null | scripts/how_far.sh
#
# Behind each crate that is proved it says how many are, of those that the program stands on, and how long the others take at the
# pace of those before. A crate counts as many seconds as CONTRIBUTING.md has for its proof, and 100 where it has none. What a build
# prints else is left out, but for what is wrong.
set -euo pipefail
top=$(dirname -- "$(dirname -- "$(readlink -f -- "${BASH_SOURCE[0]}")")")

declare -A uses=() weight=() begun=()
while IFS=: read -r name below; do
    uses[${name%% *}]=$below
done < <(grep -E '^[a-z_]+( [a-z_]+=[^:]*)?:' "$top/crates.txt")
while IFS='|' read -r _ name proof _; do
    name=${name//[ *]/}
    proof=${proof//[ ,]/}
    [[ $proof =~ ^[0-9]+$ ]] && weight[$name]=$proof
done < <(grep -E '^\| [a-z_*]+ \| [0-9]' "$top/CONTRIBUTING.md")

# begins CRATE: counts the crate, and those that it stands on, once each.
total=0
begins() {
    local below
    [ -z "${begun[$1]:-}" ] || return 0
    begun[$1]=1
    total=$((total + ${weight[$1]:-100}))
    for below in ${uses[$1]}; do
        [ -z "${uses[$below]+known}" ] || begins "$below"
    done
}
begins remux

# ended CRATE: the crate needs nothing more. Status 1 where that was known, or the program doesn't stand on it.
ended() {
    [ -n "${begun[$1]:-}" ] || return 1
    unset "begun[$1]"
    total=$((total - ${weight[$1]:-100}))
}

count=${#begun[@]}
proved=0
while IFS= read -r line; do
    if [[ $line =~ ^library\ ([a-z_]+):\ modules ]]; then
        ended "${BASH_REMATCH[1]}" || true # an earlier build proved it
    elif [[ $line =~ ^crate\ ([a-z_]+):\ modules ]] && ended "${BASH_REMATCH[1]}"; then
        proved=$((proved + ${weight[${BASH_REMATCH[1]}]:-100}))
        left=$((total * SECONDS / proved / 60))
        echo "remux: $((count - ${#begun[@]})) of $count crates are proved; at this pace the others take $left minutes" >&2
    elif [[ $line == *': error['* || $line == 'rt: '*mend* ]]; then
        echo "$line" >&2
    fi
done
