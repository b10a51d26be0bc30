#!/usr/bin/env bash
# Makes four streams of 10 Mbit/s and 37 seconds in the folder $1 with ffmpeg, each with two services of video and audio, and
# the plan job.toml of all eight at 38 Mbit/s. Four seconds of each service are made, and repeated without a new encoding.
set -euo pipefail
mkdir -p "$1"
cd "$1"

# A service of four seconds: its number, and the frequency of its tone.
clip() {
    ffmpeg -hide_banner -loglevel error -y \
        -f lavfi -i "testsrc2=size=352x288:rate=25:duration=4,noise=alls=30:allf=t:all_seed=$1" \
        -f lavfi -i "sine=frequency=$2:duration=4" -threads 1 \
        -c:v mpeg2video -b:v 3900k -minrate 3900k -maxrate 3900k -bufsize 1000k -g 12 -bf 2 \
        -c:a mp2 -b:a 192k -ac 2 -f mpegts "clip_$1.ts"
}

for input in 0 1 2 3; do
    first=clip_$((2 * input)).ts
    second=clip_$((2 * input + 1)).ts
    clip $((2 * input)) $((400 + 100 * input))
    clip $((2 * input + 1)) $((450 + 100 * input))
    ffmpeg -hide_banner -loglevel error -y -stream_loop 9 -i "$first" -stream_loop 9 -i "$second" \
        -map 0 -map 1 -c copy -t 37 -streamid 0:257 -streamid 1:258 -streamid 2:259 -streamid 3:260 \
        -program title=One:program_num=1:st=0:st=1 -program title=Two:program_num=2:st=2:st=3 \
        -f mpegts -muxrate 10000000 -mpegts_pmt_start_pid 4096 "input_$input.ts"
    rm "$first" "$second"
done

{
    cat <<'PLAN'
rate = 38000000
period = 1000
watch = 20000
version = 0
queue = 256
ring = 256
transport_stream_id = 1
original_network_id = 2
network_id = 3
network_name = "Bench"
transport_descriptors = ""
PLAN
    for input in 0 1 2 3; do
        printf '[[input]]\nfile = "input_%d.ts"\nrate = 10000000\noffset = 0\n' "$input"
    done
    for service in 0 1 2 3 4 5 6 7; do
        printf '[[service]]\ninput = %d\nprogram = %d\nservice = %d\npmt = %d\n' \
            $((service / 2)) $((service % 2 + 1)) $((service + 1)) $((256 + service))
        for stream in 0 1; do
            printf '[[service.stream]]\npid = %d\nout = %d\nleak = %d\n' \
                $((257 + 2 * (service % 2) + stream)) $((512 + 2 * service + stream)) $((stream ? 2000000 : 18000000))
        done
    done
} > job.toml
