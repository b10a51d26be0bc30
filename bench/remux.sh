#!/usr/bin/env bash
# Makes the multiplex of 4 inputs with 8 services at 38 Mbit/s, 900,000 slots, in threads and in one thread, and the same streams
# at the same rate with `ffmpeg -c copy`, and copies the inputs with `cat`, in turn, three times or TURNS times. Each line: which,
# packets, packets a second, and peak memory. The last lines are the ratios of the best times and of the medians, and whether the
# bytes of both runs are those of plain.c, which makes the same multiplex with none of our code. REMUX names another program than
# the built one, BEFORE one whose run is measured beside it, and FOLDER where inputs and output lie (/dev/shm/remux: in memory).
set -euo pipefail
cd "$(dirname "${BASH_SOURCE[0]}")"
program=${REMUX:-$PWD/../remux}
[ -n "${REMUX:-}" ] || (cd ../crates/remux && rt run > /dev/null 2>&1)
folder=${FOLDER:-$PWD/data/remux}
[ -s "$folder/job.toml" ] || ./make_inputs.sh "$folder"
cc -O2 -o "$folder/plain" plain.c
cd "$folder"
trap 'rm -f plain out.ts' EXIT
cat input_?.ts > /dev/null
python3 - "$program" "${TURNS:-3}" "${BEFORE:-}" <<'PY'
import hashlib, os, statistics, subprocess, sys, time

run = ["run", "--plan", "job.toml", "--out", "out.ts", "--slots", "900000"]
inputs = ["input_%d.ts" % k for k in range(4)]
maps = [word for k in range(4) for word in ("-map", str(k))]
ffmpeg = ["ffmpeg", "-hide_banner", "-loglevel", "error", "-y", *[w for name in inputs for w in ("-i", name)], *maps]
jobs = {
    "threads": [sys.argv[1], *run],
    "serial": [sys.argv[1], *run, "--serial"],
    "before": [sys.argv[3], *run],
    "ffmpeg": [*ffmpeg, "-c", "copy", "-f", "mpegts", "-muxrate", "38000000", "out.ts"],
    "cat": ["sh", "-c", "cat input_?.ts > out.ts"],
}
if not sys.argv[3]:
    del jobs["before"]


def digest():
    with open("out.ts", "rb") as file:
        return hashlib.file_digest(file, "sha256").hexdigest()


speeds, ours = {}, {}
for turn in range(int(sys.argv[2])):
    for name, words in jobs.items():
        start = time.perf_counter()
        child = subprocess.Popen(words, stdout=subprocess.DEVNULL)
        _, status, usage = os.wait4(child.pid, 0)
        seconds = time.perf_counter() - start
        if status:
            sys.exit("%s: status %d" % (name, status))
        packets = os.path.getsize("out.ts") // 188
        speeds.setdefault(name, []).append(packets / seconds)
        print("%s: %d packets, %d a second, %d MB" % (name, packets, packets / seconds, usage.ru_maxrss // 1024))
        if words[0] == sys.argv[1]:
            ours.setdefault(name, set()).add(digest())
        os.remove("out.ts")
for name in list(jobs)[1:]:
    best, middle = (of(speeds["threads"]) / of(speeds[name]) for of in (max, statistics.median))
    print("threads is %.2f times %s by the best times, %.2f by the medians" % (best, name, middle))
subprocess.run(["./plain", "job.toml", "out.ts", "900000"], check=True, stdout=subprocess.DEVNULL)
for name, digests in ours.items():
    if digests != {digest()}:
        sys.exit("the bytes of %s aren't the plain program's" % name)
print("the bytes of %s are the plain program's" % " and ".join(ours))
PY
