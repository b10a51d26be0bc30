#!/usr/bin/env bash
# The commonest mistakes of a new user, each made in the example's plan, in its files or in the words of a command. The lines below
# say what is wrong, where it is and what to do, and stand on standard error as they are; of a refusal the first of them is the first
# there. From anywhere: scripts/mistakes.sh [PROGRAM]. It needs bash, coreutils and python3, and takes seconds once the program is
# built. A line for each mistake, and one that counts them; the status is 1 where an answer is another one.
set -u
top=$(cd -- "$(dirname -- "${BASH_SOURCE[0]}")/.." && pwd)
program=$(realpath -- "${1:-$top/remux}")
folder=$(mktemp -d)
trap 'rm -rf -- "$folder"' EXIT
cd -- "$folder" || exit 1
sed 's|examples/||' "$top/examples/plan.toml" > plan.toml
cp "$top/examples/north.ts" "$top/examples/south.ts" .

passed=0
failed=0

# has_lines STATUS: each line of the file `wanted` is one of `err`, and the first one of a refusal is the first there. What was
# measured is a number of any size, and the stream whose queue is full in an overfull plan may be any.
has_lines() {
    local line
    sed -E 's/measured [0-9]+/measured N/; s/^overfull: stream 0x[0-9A-F]{4} \(input [0-9], PID 0x[0-9A-F]{4}\)/overfull: stream N/' err > said
    if [ "$1" -ge 2 ] && [ "$(head -n 1 wanted)" != "$(head -n 1 err)" ]; then
        return 1
    fi
    while IFS= read -r line; do
        grep -qxF -- "$line" said || return 1
    done < wanted
}

# answer NAME STATUS WORD..: the program, called with these words, ends with this status and says the lines of standard input.
answer() {
    local name=$1 wanted=$2 status=0
    shift 2
    cat > wanted
    "$program" "$@" > out 2> err < /dev/null || status=$?
    if [ "$status" = "$wanted" ] && has_lines "$status"; then
        passed=$((passed + 1))
        echo "ok $name"
    else
        failed=$((failed + 1))
        echo "FAILED $name: status $status, wanted $wanted and the lines"
        sed 's|^|    |' wanted
        echo '  where it said'
        sed 's|^|    |' err
    fi
}

# mistake NAME STATUS SED..: the same of `check` over the example's plan, edited so.
mistake() {
    local name=$1 status=$2
    shift 2
    sed "$@" plan.toml > mistake.toml
    answer "$name" "$status" check --plan mistake.toml
}

# Names of files.
answer 'a plan that is not there' 4 check --plan plans.toml << 'END'
fault file plans.toml
plans.toml: it can't be opened: No such file or directory (os error 2)
END
mistake 'an input that is not there' 4 's|"north.ts"|"nord.ts"|' << 'END'
fault file nord.ts
nord.ts: it can't be opened: No such file or directory (os error 2)
names in a plan are taken from the folder in which the program is called
END
answer 'an output onto an input' 4 run --plan plan.toml --out ./north.ts << 'END'
fault file ./north.ts
./north.ts: it is the plan's file or an input; the output has to be another file
END
answer 'an output onto the plan' 4 run --plan plan.toml --out plan.toml << 'END'
fault file plan.toml
plan.toml: it is the plan's file or an input; the output has to be another file
END
mistake 'an input without a name' 4 's|"north.ts"|""|' << 'END'
fault file 
the name is empty: it can't be opened: No such file or directory (os error 2)
END
mistake 'an address for an input' 4 's|"north.ts"|"udp://239.0.0.1:1234"|' << 'END'
fault file udp://239.0.0.1:1234
udp://239.0.0.1:1234: it can't be opened: No such file or directory (os error 2)
names are those of files and pipes, and no addresses of a network
END
awk '/^\[\[service\]\]$/ && ++count == 3 { exit } { print }' plan.toml | sed 's|"south.ts"|"./north.ts"|' > twice.toml
answer 'a file as two inputs' 0 check --plan twice.toml << 'END'
inputs: 0 and 1 are one file; services of one file can share an [[input]]
END
answer 'an output in a folder that is not there' 4 run --plan plan.toml --out made/out.ts << 'END'
fault file made/out.ts
made/out.ts: no new file can be made beside it: No such file or directory (os error 2)
END

# The plan's text.
mistake 'a line without its =' 3 's|^period = 250$|period 250|' << 'END'
fault 1 BadText
the text is no plan: it isn't TOML, or a key is missing, unknown or of another type
line 8: key with no value, expected `=`
END
mistake 'a name without its quotes' 3 's|"north.ts"|north.ts|' << 'END'
fault 1 BadText
line 21: invalid value, expected a string, number, boolean, date-time, array or inline table
END
mistake 'a key that is misspelt' 3 's|^period = |periode = |' << 'END'
fault 1 BadText
line 8: unknown field `periode`
END
mistake 'a key that is left out' 3 '0,/^offset = 0$/{//d}' << 'END'
fault 1 BadText
line 20: missing key 'offset'
END
mistake 'a rate as a text' 3 's|^rate = 3000000$|rate = "3000000"|' << 'END'
fault 1 BadText
line 7: invalid type: string "3000000", expected an integer in `rate`
END
mistake 'a PID as a text, one of several' 3 '0,/^pid = 258$/s||pid = "0x102"|' << 'END'
fault 1 BadText
line 40: invalid type: string "0x102", expected an integer in `service.stream.pid`
END
mistake 'a key of the top behind the tables' 3 -e '/^rate = 3000000$/d' -e '$a rate = 3000000' << 'END'
fault 1 BadText
line 70: unknown field `rate` in `service.stream`
END
mistake 'tables under another name' 3 's|^\[\[input\]\]$|[[inputs]]|' << 'END'
fault 1 BadText
line 20: unknown field `inputs`
END
mistake 'a table in the place of a list of tables' 3 's|^\[\[input\]\]$|[input]|' << 'END'
fault 1 BadText
line 20: [[input]] is meant where [input] stands
END
mistake 'streams beside their services' 3 's|^\[\[service.stream\]\]$|[[stream]]|' << 'END'
fault 1 BadText
line 35: [[service.stream]] is meant where [[stream]] stands
END
mistake 'hex digits with blanks' 3 's|"440B03|"44 0B 03 |' << 'END'
fault 1 BadText
line 18: transport_descriptors has byte 0x20 at place 2, which is no hex digit
END
mistake 'hex digits with one too few' 3 's|750F"|750"|' << 'END'
fault 1 BadText
line 18: transport_descriptors has an odd number of hex digits, 25
END
mistake 'a letter in another code than UTF-8' 3 's|"Example"|"K\xF6ln"|' << 'END'
fault 1 BadText
line 16: it is no UTF-8 text, from byte 0xF6 on
END
answer 'an input for the plan' 3 check --plan north.ts << 'END'
fault 1 BadText
it is a transport stream; a plan is text
END
mistake 'a rate in kilobits' 3 's|^rate = 1000000$|rate = 1000|' << 'END'
fault 2 OutOfRange
line 22: input 0: rate is 1000, from 500000 to 100000000
END
mistake 'an offset before the start' 3 '0,/^offset = 0$/s||offset = -1|' << 'END'
fault 2 OutOfRange
line 23: input 0: offset is -1, from 0 to 97200000000
END
mistake 'inputs counted from 1' 3 's|^input = 1$|input = 2|' << 'END'
fault 2 OutOfRange
line 45: service 1: input is 2, from 0 to 1
END
mistake 'a service number twice' 3 's|^service = 102$|service = 101|' << 'END'
fault 3 ServiceTaken
END
mistake 'a PID twice' 3 's|^out = 513$|out = 512|' << 'END'
fault 4 PidTaken
END

# What the inputs have.
mistake 'a program that the input does not have' 3 '0,/^program = 1$/s||program = 9|' << 'END'
fault 5 NoProgram
a program is not in its input
service 101 (input 0, program 9): the input has no such program; its PAT has program 1
END
mistake 'a stream without its row' 3 '/^\[\[service.stream\]\]$/{N;/pid = 260$/{N;N;d}}' << 'END'
fault 8 RateMissing
a stream of a program has no row in the plan
service 103 (input 1, program 2): its PMT names PID 0x0104 (stream type 0x03), and no row has it
END
mistake 'a row of no stream' 3 '$a [[service.stream]]\npid = 261\nout = 546\nleak = 2000000' << 'END'
fault 9 StreamUnknown
service 103 (input 1, program 2): a row has PID 0x0105, and its PMT doesn't name it
END
: > empty.ts
mistake 'an input without a byte' 3 's|"north.ts"|"empty.ts"|' << 'END'
fault 5 NoProgram
input 0, empty.ts: it is empty
END
mistake 'an input that is no transport stream' 3 's|"north.ts"|"plan.toml"|' << 'END'
fault 5 NoProgram
input 0, plan.toml: it has no sync byte, 0x47, at its beginning: it is no transport stream
END

# north.ts with 16 bytes behind each packet; with free_CA_mode 1 in its SDT and a CRC that fits; without its PAT; without its PMT;
# without its SDT; without null packets from its 1,001st packet on; with a PAT of 22 other programs; and with one that names the
# network's PID alone. A file whose bytes 0x47 are 256 apart. A plan of 16
# services whose NIT is too large: 5 bytes, the lengths of its two loops, a name of 64 bytes in a descriptor, 6 bytes, a service list
# of 16, 900 bytes and the CRC.
python3 - << 'END'
packets = [packet for packet in iter(lambda file=open("north.ts", "rb"): file.read(188), b"")]


def crc(octets):
    register = 0xFFFFFFFF
    for octet in octets:
        register ^= octet << 24
        for _ in range(8):
            register = (register << 1 ^ 0x04C11DB7) & 0xFFFFFFFF if register >> 31 else register << 1
    return register.to_bytes(4, "big")


def pid(packet):
    return packet[1] % 32 << 8 | packet[2]


def scrambled(packet):
    if pid(packet) != 0x11:
        return packet
    section = bytearray(packet[5:8 + (packet[6] % 16 << 8 | packet[7])])
    section[14] |= 0x10
    section[-4:] = crc(section[:-4])
    return packet[:5] + section + packet[5 + len(section):]


def with_programs(packet, programs):
    if pid(packet) != 0:
        return packet
    rows = b"".join(program.to_bytes(2, "big") + b"\xE1\x00" for program in programs)
    section = b"\x00\xB0" + bytes([9 + len(rows)]) + b"\x00\x01\xC1\x00\x00" + rows
    return (packet[:4] + b"\x00" + section + crc(section)).ljust(188, b"\xFF")


def write(name, pieces):
    with open(name, "wb") as file:
        file.write(b"".join(pieces))


pmt = next(pid(packet) for packet in packets if packet[1] & 0x40 and packet[4:6] == b"\x00\x02")
write("long.ts", (packet + bytes(16) for packet in packets))
write("scrambled.ts", map(scrambled, packets))
write("nopat.ts", (packet for packet in packets if pid(packet) != 0))
write("nopmt.ts", (packet for packet in packets if pid(packet) != pmt))
write("nosdt.ts", (packet for packet in packets if pid(packet) != 0x11))
write("variable.ts", (packet for number, packet in enumerate(packets) if number < 1000 or pid(packet) != 0x1FFF))
write("other.ts", (with_programs(packet, range(601, 623)) for packet in packets))
write("network.ts", (with_programs(packet, [0]) for packet in packets))
write("film.mp4", [b"\x00\x00\x00\x18ftypisom", bytes(range(256)) * 16])
with open("plan.toml") as file:
    top, north, first, *_ = file.read().split("\n[[")
top = top.replace('"Example"', '"' + "N" * 64 + '"')
top = top.replace("440B03460000FFF2030068750F", ("83FF" + "00" * 255) * 3 + "837F" + "00" * 127)
with open("nit.toml", "w") as file:
    file.write(top + "\n[[" + north)
    for number in range(16):
        file.write(f"\n[[service]]\ninput = 0\nprogram = 1\nservice = {101 + number}\npmt = {4096 + number}")
        for row in 0, 1:
            file.write(f"\n[[service.stream]]\npid = {257 + row}\nout = {512 + row}\nleak = 18000000")
END
mistake 'an input with packets of 204 bytes' 3 's|"north.ts"|"long.ts"|' << 'END'
fault 5 NoProgram
input 0, long.ts: it looks like packets of 204 bytes: state size = 204
END
mistake 'an input with packets of 188 bytes at size 204' 3 's|^file = "north.ts"$|&\nsize = 204|' << 'END'
fault 5 NoProgram
input 0, north.ts: it looks like packets of 188 bytes: state size = 188
END
mistake 'an input of a size that there is not' 3 's|^file = "north.ts"$|&\nsize = 192|' << 'END'
fault 2 OutOfRange
line 22: input 0: size is 192, either 188 or 204
END
answer 'an analysis of packets of 204 bytes' 1 analyse --rate 1000000 --period 5000 long.ts << 'END'
long.ts: it looks like packets of 204 bytes: state --size 204
END
answer 'an analysis of a file without a byte' 1 analyse --rate 1000000 --period 5000 empty.ts << 'END'
empty.ts: it is empty
END
mistake 'an input in another container' 3 's|"north.ts"|"film.mp4"|' << 'END'
fault 5 NoProgram
input 0, film.mp4: no five sync bytes stand in step at its beginning: it is no transport stream, or has fewer than five packets
END
mistake 'an input without a PAT' 3 's|"north.ts"|"nopat.ts"|' << 'END'
fault 5 NoProgram
service 101 (input 0, program 1): the input has no such program; it has no complete PAT
END
mistake 'an input without the PMT' 3 's|"north.ts"|"nopmt.ts"|' << 'END'
fault 5 NoProgram
service 101 (input 0, program 1): the input's PAT has it, and its PMT was not found
END
mistake 'an input without an SDT' 3 's|"north.ts"|"nosdt.ts"|' << 'END'
fault 6 NoSdtRow
a service is not described in its input
service 101 (input 0, program 1): the input has no complete SDT
ffmpeg writes a file with one, and with other PIDs: ffmpeg -i 'nosdt.ts' -map 0:p:1 -c copy -copy_unknown -mpegts_service_id 1 -metadata service_name='nosdt' -muxrate 1000000 new.ts
END
mistake 'an input with many other programs' 3 's|"north.ts"|"other.ts"|' << 'END'
fault 5 NoProgram
service 101 (input 0, program 1): the input has no such program; its PAT has programs 601, 602, 603, 604, 605, 606, 607, 608, 609, 610, 611, 612, 613, 614, 615, 616, 617, 618, 619, 620 and 2 more
END
mistake 'an input whose PAT is empty' 3 's|"north.ts"|"network.ts"|' << 'END'
fault 5 NoProgram
service 101 (input 0, program 1): the input has no such program; its PAT has no program
END
answer 'more descriptors than the NIT has room for' 3 check --plan nit.toml << 'END'
fault 10 TooLarge
a table is too large for its section
section_length of the NIT is 1035, at most 1021
END
mistake 'a scrambled service' 3 's|"north.ts"|"scrambled.ts"|' << 'END'
fault 7 CaFound
service 101 (input 0, program 1): free_CA_mode is 1 in its row of the SDT
END

# Times and rates.
mistake 'a period that is too long' 3 's|^period = 250$|period = 1000|' << 'END'
fault 12 PeriodTooLong
period is 1000, at most 997
END
mistake 'a period that is too short' 3 's|^period = 250$|period = 10|' << 'END'
fault 11 RoundTooLong
period is 10, at least 15
END
mistake 'a rate that is not the input'"'"'s' 0 's|^rate = 1000000$|rate = 1001000|' << 'END'
rate: input 0 runs at 1000000 bits a second by the PCRs of PID 0x0101, 999 ppm below the stated 1001000: state 1000000
END
cp mistake.toml slow.toml
for word in '' --serial; do
    answer "the same in a run $word" 0 run --plan slow.toml --out out.ts $word << 'END'
end: all inputs ended
rate: input 0 runs at 1000000 bits a second by the PCRs of PID 0x0101, 999 ppm below the stated 1001000: state 1000000
END
done
mistake 'an input of variable rate' 0 's|"north.ts"|"variable.ts"|' << 'END'
rate: input 0 gets them by ffmpeg, and other PIDs: ffmpeg -i 'variable.ts' -map 0:p:1 -c copy -copy_unknown -mpegts_service_id 1 -metadata service_name='variable' -muxrate 1100000 new.ts
END
mistake 'a leak rate that is too low' 0 '0,/^leak = 2000000$/s||leak = 100000|' << 'END'
leak: stream 0x0201 (input 0, PID 0x0102): 100000 bits a second, below its measured N: state more
END
answer 'the same in a strict check' 1 check --plan mistake.toml --strict << 'END'
leak: stream 0x0201 (input 0, PID 0x0102): 100000 bits a second, below its measured N: state more
END
answer 'the same in a run of all' 0 run --plan mistake.toml --out out.ts --all << 'END'
leak: stream 0x0201 (input 0, PID 0x0102): 100000 bits a second, below its measured N: state more
END
answer 'a rate that is not the input'"'"'s in a strict check' 1 check --plan slow.toml --strict << 'END'
rate: input 0 runs at 1000000 bits a second by the PCRs of PID 0x0101, 999 ppm below the stated 1001000: state 1000000
END
answer 'the same in a strict run' 1 run --plan slow.toml --out out.ts --strict << 'END'
end: all inputs ended
rate: input 0 runs at 1000000 bits a second by the PCRs of PID 0x0101, 999 ppm below the stated 1001000: state 1000000
END
mistake 'a multiplex that is too slow' 0 's|^rate = 3000000$|rate = 1200000|' << 'END'
services: measured N bits a second of 1200000, the tables take 24000
overfull: the services take more than the 1176000 bits a second that rate 1200000 leaves after the tables: raise it, or leave a service out
END
cp mistake.toml narrow.toml
answer 'the same in a strict check' 1 check --plan narrow.toml --strict << 'END'
overfull: the services take more than the 1176000 bits a second that rate 1200000 leaves after the tables: raise it, or leave a service out
END
sed 's|^queue = 1024$|queue = 64|' mistake.toml > full.toml
answer 'the same in a strict run, with short queues' 1 run --plan full.toml --out out.ts --strict << 'END'
end: all inputs ended
overfull: stream N: its queue was full, with 64 packets
END

# Words.
answer 'a plan without --plan' 2 check plan.toml << 'END'
error: unexpected argument 'plan.toml' found
Usage: remux check --plan <F> [--then <F> --at <N>].. [--strict] [--json]
END
answer 'a run without an output' 2 run --plan plan.toml << 'END'
error: the following required arguments were not provided:
  --out <F>
END
answer 'a command that is misspelt' 2 chek --plan plan.toml << 'END'
error: unrecognized subcommand 'chek'
  tip: a similar subcommand exists: 'check'
END
answer 'a run of no slots' 2 run --plan plan.toml --out out.ts --slots 0 << 'END'
error: invalid value '0' for '--slots <N>': 0 is not in 1..=1000000
END
answer 'a run of too many slots' 2 run --plan plan.toml --out out.ts --slots 2000000 << 'END'
error: invalid value '2000000' for '--slots <N>': 2000000 is not in 1..=1000000
  tip: '--all' goes on until the inputs end
END
answer 'a report of each moment' 2 run --plan plan.toml --out out.ts --report 0 << 'END'
error: invalid value '0' for '--report <N>': 0 is not in 1..=3600
END

echo "$passed passed, $failed failed"
[ "$failed" = 0 ]
