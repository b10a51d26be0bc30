#!/usr/bin/env python3
"""Makes random jobs, runs each with the program, in threads and in one thread, and with plain.c, which shares no code with it, and
compares the bytes.

    random_jobs.py PROGRAM [JOBS [SEED]]

A job has 1 to 4 inputs of 1 to 3 services with PCRs, empty adaptation fields, repeated packets, bad sync bytes, junk between
packets and a cut end; queues of 1 to 64 packets; rates from too low to three times what is needed; leaks from low to high;
offsets up to a second; and limits of slots. A plan that the program refuses is counted and left out. It ends at the first job
whose bytes differ, and leaves its files."""
import os, random, subprocess, sys, tempfile

program = os.path.abspath(sys.argv[1])
jobs = int(sys.argv[2]) if len(sys.argv) > 2 else 300
here = os.path.dirname(os.path.abspath(__file__))


def crc(data):
    register = 0xFFFFFFFF
    for byte in data:
        register ^= byte << 24
        for _ in range(8):
            register = (register << 1) ^ 0x104C11DB7 if register & 0x80000000 else register << 1
    return register.to_bytes(4, "big")


def section(table_id, one_bit, number, body):
    length = len(body) + 9
    head = bytes([table_id, 0xB0 | one_bit << 6 | length >> 8, length & 255]) + number.to_bytes(2, "big") + bytes([0xC1, 0, 0])
    return head + body + crc(head + body)


class Stream:
    """An input: packets on their PIDs, with counters that go on."""

    def __init__(self, rng):
        self.rng, self.out, self.counters = rng, bytearray(), {}

    def packet(self, pid, unit_start, body, field=b""):
        counter = self.counters.get(pid, self.rng.randrange(16))
        self.counters[pid] = (counter + 1) % 16
        head = bytes([0x47, unit_start | pid >> 8, pid & 255, (0x30 if field else 0x10) | counter]) + field
        return head + body[:188 - len(head)].ljust(188 - len(head), b"\xff")

    def tables(self, services):
        pat = b"".join(bytes([s["program"] >> 8, s["program"] & 255, 0xE0 | s["pmt_pid"] >> 8, s["pmt_pid"] & 255]) for s in services)
        self.out += self.packet(0, 0x40, b"\0" + section(0, 0, 7, pat))
        sdt = b"\0\1\xff"
        for s in services:
            pmt = bytes([0xE0 | s["pcr"] >> 8, s["pcr"] & 255, 0xF0, 0])
            for pid in s["pids"]:
                pmt += bytes([self.rng.choice([2, 3, 27, 15]), 0xE0 | pid >> 8, pid & 255, 0xF0, 3, 0x52, 1, pid & 255])
            self.out += self.packet(s["pmt_pid"], 0x40, b"\0" + section(2, 0, s["program"], pmt))
            name = bytes(self.rng.randrange(65, 91) for _ in range(self.rng.randrange(1, 6)))
            row = bytes([0x48, 3 + len(name), s["type"], 0, len(name)]) + name
            sdt += bytes([s["program"] >> 8, s["program"] & 255, 0xFC | self.rng.randrange(4), 0x80, len(row)]) + row
        self.out += self.packet(0x11, 0x40, b"\0" + section(0x42, 1, 7, sdt))

    def body(self, pids):
        """Some packets of the PIDs, of others, and null ones."""
        rng, clock = self.rng, rng_clock(self.rng)
        for _ in range(rng.choice([3, 40, 400, 1500])):
            kind = rng.random()
            pid = rng.choice(pids) if kind < 0.8 else rng.choice([0x1FFF, 0x0123, 0x1000])
            field = b""
            if rng.random() < 0.1:
                field = bytes([7, 0x10]) + next(clock)
            elif rng.random() < 0.1:
                field = rng.choice([b"\0", b"\1\0", b"\1\x80", bytes([9, 2]) + rng.randbytes(8)])
            made = self.packet(pid, rng.choice([0, 0, 0x40, 0x80]), rng.randbytes(184), field)
            self.out += made * (2 if rng.random() < 0.03 else 1)

    def damage(self, keep):
        rng = self.rng
        for _ in range(rng.choice([0, 0, 0, 1, 5])):
            place = rng.randrange(keep, len(self.out))
            how = rng.randrange(3)
            if how == 0:
                start = place - place % 188
                self.out[start] = rng.randrange(256)
                if rng.random() < 0.3 and start + 188 < len(self.out):
                    self.out[start + 188] = rng.randrange(256)
            elif how == 1:
                self.out[place:place] = rng.randbytes(rng.randrange(1, 400))
            else:
                self.out[place] = rng.randrange(256)
        if rng.random() < 0.3:
            del self.out[rng.randrange(keep, len(self.out) + 1):]


def rng_clock(rng):
    value = rng.choice([0, 1000, (1 << 33) * 300 - 1_000_000, rng.randrange((1 << 33) * 300)])
    while True:
        value = (value + rng.randrange(1_000_000)) % ((1 << 33) * 300)
        yield ((value // 300 << 15) | rng.randrange(64) << 9 | value % 300).to_bytes(6, "big")


def make_job(rng):
    out_pids = iter(rng.sample(range(0x20, 0x1FFF), 100))
    inputs, services, need = [], [], 0
    for number in range(rng.randrange(1, 5)):
        pids = rng.sample(range(0x20, 0x1000), 12)
        made = []
        for k in range(rng.randrange(1, 4)):
            own = [pids.pop() for _ in range(rng.randrange(1, 4))]
            made.append({"program": 100 + k, "pmt_pid": pids.pop(), "pcr": rng.choice(own + [0x1FFF]), "pids": own, "type": rng.randrange(1, 26)})
        stream = Stream(rng)
        stream.tables(made)
        keep = len(stream.out)
        stream.body([pid for service in made for pid in service["pids"]])
        stream.damage(keep)
        with open("input_%d.ts" % number, "wb") as file:
            file.write(stream.out)
        rate = rng.choice([500_000, 1_504_000, rng.randrange(500_000, 8_000_000)])
        need += rate
        inputs.append("[[input]]\nfile = \"input_%d.ts\"\nrate = %d\noffset = %d\n" % (number, rate, rng.choice([0, 0, rng.randrange(27_000_000)])))
        for service in rng.sample(made, rng.randrange(1, len(made) + 1)):
            text = "[[service]]\ninput = %d\nprogram = %d\nservice = %d\npmt = %d\n" % (number, service["program"], 500 + len(services), next(out_pids))
            for pid in service["pids"]:
                leak = rng.choice([400_000, 2_000_000, 18_000_000, rng.randrange(100_000, 9_000_000)])
                text += "[[service.stream]]\npid = %d\nout = %d\nleak = %d\n" % (pid, next(out_pids), leak)
            services.append(text)
    rate = max(500_000, int(need * rng.choice([0.5, 1.0, 1.3, 3.0])))
    gap = max(2, -(-rate // 1_000_000))
    least = gap * (len(services) + 2)
    period = rng.randrange(least, max(least + 1, rate // 3008 + 1))
    head = {"rate": rate, "period": period, "watch": 5000, "version": rng.randrange(32), "queue": rng.choice([1, 2, 5, 64]), "ring": 16,
            "transport_stream_id": rng.randrange(65536), "original_network_id": rng.randrange(65536), "network_id": rng.randrange(65536)}
    with open("job.toml", "w") as file:
        file.write("".join("%s = %d\n" % item for item in head.items()))
        file.write('network_name = "Jobs"\ntransport_descriptors = "%s"\n' % rng.choice(["", "440B03460000FFF2030068750F"]))
        file.write("".join(inputs) + "".join(services))
    return rng.choice([1_000_000, 1_000_000, rng.randrange(1, 3000)])


with tempfile.TemporaryDirectory() as folder:
    os.chdir(folder)
    subprocess.run(["cc", "-O2", "-o", "plain", os.path.join(here, "plain.c")], check=True)
    seed, refused, slots = int(sys.argv[3]) if len(sys.argv) > 3 else 1, 0, 0
    for job in range(seed, seed + jobs):
        limit = make_job(random.Random(job))
        words = [program, "run", "--plan", "job.toml", "--slots", str(limit), "--out"]
        run = subprocess.run([*words, "ours.ts"], capture_output=True, text=True)
        serial = subprocess.run([*words, "serial.ts", "--serial"], capture_output=True, text=True)
        if (run.returncode, serial.returncode) == (3, 3):
            refused += 1
            continue
        if run.returncode or serial.returncode:
            sys.exit("job %d: status %d, and serial %d: %s" % (job, run.returncode, serial.returncode, run.stderr))
        plain = subprocess.run(["./plain", "job.toml", "plain.ts", str(limit)], capture_output=True, text=True)
        ours, theirs = open("ours.ts", "rb").read(), open("plain.ts", "rb").read()
        if plain.returncode or ours != theirs or open("serial.ts", "rb").read() != theirs:
            kept = os.path.join(here, "data", "job_%d" % job)
            os.makedirs(kept, exist_ok=True)
            subprocess.run("cp * " + kept, shell=True)
            sys.exit("job %d: the bytes differ; its files are in %s\n%s%s" % (job, kept, run.stdout, plain.stdout + plain.stderr))
        slots += len(ours) // 188
    print("%d jobs, %d of them with a plan that is refused: %d packets, equal bytes" % (jobs, refused, slots))
