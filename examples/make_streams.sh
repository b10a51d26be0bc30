#!/usr/bin/env bash
# Makes the streams of this folder with ffmpeg from its test sources: north.ts with one service and south.ts with two, each
# of constant rate, and damaged.ts, the beginning of north.ts with faults. They are in the repository, so this is needed only
# to change them; another version of ffmpeg may make other bytes.
set -euo pipefail
cd "$(dirname "${BASH_SOURCE[0]}")"
exact=(-fflags +bitexact -flags:v +bitexact -flags:a +bitexact -map_metadata -1)
mpegts=(-f mpegts -mpegts_flags +system_b -pat_period 0.1 -sdt_period 0.5 -flush_packets 0)

ffmpeg -hide_banner -loglevel error -y \
    -f lavfi -i "testsrc=size=320x180:rate=25:duration=3" -f lavfi -i "sine=frequency=440:duration=3" \
    "${exact[@]}" -threads 1 \
    -c:v mpeg2video -b:v 500k -maxrate 600k -bufsize 300k -g 12 -bf 0 -c:a mp2 -b:a 96k -ac 2 \
    -map 0 -map 1 -streamid 0:257 -streamid 1:258 \
    -metadata service_provider="Remux" -metadata service_name="North" \
    "${mpegts[@]}" -muxrate 1000000 -mpegts_pmt_start_pid 4096 -mpegts_service_id 1 north.ts

ffmpeg -hide_banner -loglevel error -y \
    -f lavfi -i "testsrc2=size=320x180:rate=25:duration=2" -f lavfi -i "sine=frequency=660:duration=2" \
    -f lavfi -i "smptebars=size=320x180:rate=25:duration=2" -f lavfi -i "sine=frequency=880:duration=2" \
    "${exact[@]}" -threads 1 \
    -c:v mpeg2video -b:v 500k -maxrate 600k -bufsize 300k -g 12 -bf 0 -c:a mp2 -b:a 96k -ac 2 \
    -map 0 -map 1 -map 2 -map 3 -streamid 0:257 -streamid 1:258 -streamid 2:259 -streamid 3:260 \
    -program title=South:program_num=1:st=0:st=1 -program title=Bars:program_num=2:st=2:st=3 \
    -metadata service_provider="Remux" \
    "${mpegts[@]}" -muxrate 1800000 -mpegts_pmt_start_pid 4096 south.ts

python3 - <<'PY'
# 500 packets of north.ts: one is left out, one comes three times, two in a row have a bad sync byte, and a PAT is scrambled.
packets = [bytearray(chunk) for chunk in zip(*[iter(open("north.ts", "rb").read())] * 188)][:500]
pid = lambda packet: packet[1] % 32 * 256 + packet[2]
video = [k for k, packet in enumerate(packets) if pid(packet) == 257]
pats = [k for k, packet in enumerate(packets) if pid(packet) == 0]
for k in (300, 301):
    packets[k][0] = 0x48
packets[pats[2]][3] |= 0xC0
again = video[60]
packets[again:again] = [packets[again], packets[again]]
del packets[video[20]]
open("damaged.ts", "wb").write(b"".join(packets))
PY
