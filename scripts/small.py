"""Small files for the scripts: a plan, the input that it names, and what they are made of.

A slot of the plan's rate takes a millisecond, 27,000 ticks of 27 MHz, as a packet of its input does. A round of tables has two packets
of PAT and PMT and one of SDT or NIT, two slots apart. The input has a PAT with program 100, its PMT with one stream of video on PID
0x0101, an SDT, and packets of that stream.
"""


def settings(queue=64):
    """The head of a plan's text."""
    return f"""rate = 1504000
period = 100
watch = 1000
version = 0
queue = {queue}
ring = 64
transport_stream_id = 1
original_network_id = 2
network_id = 3
network_name = "N"
transport_descriptors = ""
"""


def input_of(name="x.ts", rate=1504000):
    """An input in a plan's text."""
    return f"""[[input]]
file = "{name}"
rate = {rate}
offset = 0
"""


def service(number=0, of=0, program=100, pid=257):
    """A service of input `of` in a plan's text: service 500 + number, whose PMT has PID 256 + number, and one stream, which becomes
    512 + number."""
    return f"""[[service]]
input = {of}
program = {program}
service = {500 + number}
pmt = {256 + number}
[[service.stream]]
pid = {pid}
out = {512 + number}
leak = 2000000
"""


PLAN = settings() + input_of() + service()


def crc(section):
    """CRC_32 of ISO/IEC 13818-1, annex A."""
    register = 0xFFFFFFFF
    for byte in section:
        for bit in range(7, -1, -1):
            top_bit = register >> 31 ^ (byte >> bit & 1)
            register = (register << 1 ^ (0x04C11DB7 if top_bit else 0)) & 0xFFFFFFFF
    return register.to_bytes(4, "big")


def table_packet(pid, section):
    """A packet with a section, of which the CRC_32 is put in."""
    section = bytes.fromhex(section)
    start = bytes([0x47, 0x40 | pid >> 8, pid & 0xFF, 0x10, 0]) + section + crc(section)
    return start.ljust(188, b"\xff")


PAT = table_packet(0x0000, "00b00d0001c100000064e100")

PMT = table_packet(0x0100, "02b0120064c10000e101f00002e101f000")

SDT = table_packet(0x0011, "42f0180001c100000002ff0064fc800748050101410142")

TABLES = PAT + PMT + SDT

NULL = bytes([0x47, 0x1F, 0xFF, 0x10]) + b"\xff" * 184


def packets(counters):
    """Packets of PID 0x0101 with these counters."""
    return b"".join(bytes([0x47, 0x01, 0x01, 0x10 + counter % 16]) + b"\xaa" * 184 for counter in counters)


def pcr_packet(counter, pcr, is_discontinuous=False):
    """A packet of PID 0x0101 with this counter and PCR, in ticks of 27 MHz."""
    flags = 0x90 if is_discontinuous else 0x10
    field = (pcr // 300 % (1 << 33)) << 15 | 0x7E00 | pcr % 300
    head = bytes([0x47, 0x01, 0x01, 0x30 + counter % 16, 7, flags])
    return head + field.to_bytes(6, "big") + b"\xaa" * 176


EIGHT = TABLES + packets(range(5))


def widened(octets):
    """The packets with sixteen bytes 0x47 after each: 204 bytes a packet."""
    return b"".join(octets[at:at + 188] + b"\x47" * 16 for at in range(0, len(octets), 188))


# The example's plan over an input of packets of 204 bytes, each of which takes a millisecond too.
WIDE_PLAN = PLAN.replace("rate = 1504000\noffset = 0", "rate = 1632000\noffset = 0\nsize = 204", 1)
