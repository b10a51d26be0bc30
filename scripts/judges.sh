#!/usr/bin/env bash
# What other people's tools say of the example's multiplex, in threads and in one thread: tsreport's rate by the PCRs is the plan's and
# the PCRs are on a line, ffprobe finds the three services by their names with their streams, and ffmpeg decodes all of it without
# a word. From anywhere: scripts/judges.sh. It needs tsreport (the package tstools), ffmpeg and python3, and takes seconds once the
# program is built. REMUX names another program than ../remux. The last line counts; the status is 1 where something failed.
set -u
top=$(cd -- "$(dirname -- "${BASH_SOURCE[0]}")/.." && pwd)
program=${REMUX:-$top/remux}
folder=$(mktemp -d)
trap 'rm -rf -- "$folder"' EXIT
cd -- "$top" || exit 1

passed=0
failed=0

# is NAME CONDITION..: the condition holds.
is() {
    local name=$1
    shift
    if "$@"; then
        passed=$((passed + 1))
    else
        failed=$((failed + 1))
        echo "failed: $name ($*)"
    fi
}

has() { grep -qE -- "$2" "$1"; }

# The services of a multiplex by ffprobe: number, name, and the kinds of its streams.
services() {
    ffprobe -v error -show_programs -of json "$1" | python3 -c '
import json, sys
for program in json.load(sys.stdin)["programs"]:
    kinds = sorted(stream["codec_type"] for stream in program["streams"])
    print(program["program_num"], program["tags"]["service_name"], *kinds)'
}

for word in '' --serial; do
    output=$folder/out.ts
    rm -f "$output"
    "$program" run --plan examples/plan.toml --out "$output" $word > "$folder/out" 2> "$folder/err" < /dev/null
    is "a run ends well $word" [ $? = 0 ]
    services "$output" > "$folder/services"
    is "ffprobe finds the services $word" [ "$(cat "$folder/services")" = "101 North audio video
102 South audio video
103 Bars audio video" ]
    for service in 1 2 3; do
        tsreport -b -prog "$service" "$output" > "$folder/report" 2>&1
        is "tsreport: the rate by the PCRs of program $service $word" has "$folder/report" '^Overall stream rate=(2999999|3000000|3000001) bits/sec'
        is "tsreport: no gap in them $word" has "$folder/report" 'Bad \(>\.1s\) gaps: 0,'
        is "tsreport: they are on a line $word" has "$folder/report" 'Linear PCR prediction errors: min=-?[01]t, max=-?[01]t'
    done
    ffmpeg -hide_banner -v error -i "$output" -map 0 -f null - > "$folder/decoded" 2>&1 < /dev/null
    is "ffmpeg decodes all streams $word" [ $? = 0 ]
    is "it says nothing $word" [ ! -s "$folder/decoded" ]
done

echo "$passed passed, $failed failed"
[ "$failed" = 0 ]
