#!/usr/bin/env bash
# Runs the job of remux.sh over inputs that are repeated 24 times, until they end: some 20,000,000 slots. It prints the run's
# own line of slots, the seconds that it took and its peak memory. Then it runs it again, and plain.c beside it, which makes
# the same multiplex with none of our code, and says whether their bytes are equal, by their sums. The inputs take 4.5 GB while
# it runs, the outputs nothing. REMUX names another program than the built one.
set -euo pipefail
cd "$(dirname "${BASH_SOURCE[0]}")"
program=${REMUX:-$PWD/../remux}
folder=$PWD/data/remux
[ -s "$folder/job.toml" ] || ./make_inputs.sh "$folder"
cc -O2 -o "$folder/plain" plain.c
cd "$folder"
trap 'rm -f long_?.ts long.toml plain pipe.ts' EXIT
for input in 0 1 2 3; do
    for _ in $(seq 24); do cat "input_$input.ts"; done > "long_$input.ts"
done
sed 's/"input_/"long_/' job.toml > long.toml
python3 - "$program" <<'PY'
import os, subprocess, sys, time

words = [sys.argv[1], "run", "--plan", "long.toml", "--out", "/dev/null", "--all"]
start = time.perf_counter()
child = subprocess.Popen(words, stdout=subprocess.PIPE, text=True)
text = child.stdout.read()
_, status, usage = os.wait4(child.pid, 0)
seconds = time.perf_counter() - start
if status:
    sys.exit("status %d" % status)
print(text.splitlines()[-1])
print("%.1f seconds, %d MB" % (seconds, usage.ru_maxrss // 1024))
PY

# The sum of the bytes that a command writes to the pipe.
mkfifo pipe.ts
sum() {
    sha256sum < pipe.ts &
    "$@" > /dev/null
    wait $!
}
ours=$(sum "$program" run --plan long.toml --out pipe.ts --all)
plain=$(sum ./plain long.toml pipe.ts)
[ "$ours" = "$plain" ] || { echo "the bytes aren't the plain program's"; exit 1; }
echo "the bytes are the plain program's: ${ours%% *}"
