"""Where a plan is at fault: the three lines of its fault."""
from does import FILES, CommandCase
from small import NULL, PAT, PLAN, PMT, packets, service, table_packet

FAULTS = {
    "fault 1 BadText": "the text is no plan: it isn't TOML, or a key is missing, unknown or of another type",
    "fault 2 OutOfRange": "a value of the plan is out of its range",
    "fault 3 ServiceTaken": "two services have one number",
    "fault 4 PidTaken": "a PID is used twice",
    "fault 5 NoProgram": "a program is not in its input",
    "fault 6 NoSdtRow": "a service is not described in its input",
    "fault 7 CaFound": "a service is scrambled",
    "fault 8 RateMissing": "a stream of a program has no row in the plan",
    "fault 9 StreamUnknown": "a row of the plan names a stream that is not in its program",
    "fault 11 RoundTooLong": "the tables do not fit into their period",
    "fault 12 PeriodTooLong": "the period of the tables is too long",
}

# Edits of the plan, and the fault and the place that are told. Lines are counted in the plan's text. Its input has program 100 with one
# stream, of type 0x02 on PID 0x0101. A round has the packets of PAT and PMT and one of the SDT or the NIT, two slots apart, and half a
# second has 500 slots. Its service 0 has the number 500, its PMT PID 0x0100, and its stream goes out as PID 0x0200.
CAUSES = [
    (
        "rate = 1504000",
        "rate = 499999",
        "fault 2 OutOfRange",
        "line 1: rate is 499999, from 500000 to 100000000",
    ),
    (
        'network_name = "N"',
        'network_name = ""',
        "fault 2 OutOfRange",
        "line 10: network_name has 0 bytes, from 1 to 64",
    ),
    (
        'network_name = "N"',
        'network_name = "N\\n"',
        "fault 2 OutOfRange",
        "line 10: network_name has byte 0x0A at place 1, from 0x20 to 0x7E",
    ),
    (
        'transport_descriptors = ""',
        'transport_descriptors = "41"',
        "fault 2 OutOfRange",
        "line 11: transport_descriptors isn't made of whole descriptors",
    ),
    (
        '[[input]]\nfile = "x.ts"\nrate = 1504000\noffset = 0\n',
        "input = []\n",
        "fault 2 OutOfRange",
        "the plan has 0 inputs, from 1 to 8",
    ),
    (
        "offset = 0",
        "offset = -1",
        "fault 2 OutOfRange",
        "line 15: input 0: offset is -1, from 0 to 97200000000",
    ),
    (
        "offset = 0",
        "offset = 0\nsize = 192",
        "fault 2 OutOfRange",
        "line 16: input 0: size is 192, either 188 or 204",
    ),
    (
        "input = 0",
        "input = 1",
        "fault 2 OutOfRange",
        "line 17: service 0: input is 1, from 0 to 0",
    ),
    (
        "pmt = 256",
        "pmt = 31",
        "fault 2 OutOfRange",
        "line 20: service 0: pmt is 0x001F, from 0x0020 to 0x1FFE",
    ),
    (
        "leak = 2000000",
        "leak = 999",
        "fault 2 OutOfRange",
        "line 24: service 0's stream 0: leak is 999, from 1000 to 100000000",
    ),
    (
        "pid = 257",
        "pid = -1",
        "fault 2 OutOfRange",
        "line 22: service 0's stream 0: pid is -1, from 0x0020 to 0x1FFE",
    ),
    (
        "leak = 2000000\n",
        "leak = 2000000\n[[service.stream]]\npid = 258\nout = 513\nleak = 1\n",
        "fault 2 OutOfRange",
        "line 28: service 0's stream 1: leak is 1, from 1000 to 100000000",
    ),
    (
        '[[input]]\nfile = "x.ts"\nrate = 1504000\noffset = 0\n',
        'input = [{ file = "x.ts", rate = 1504000, offset = -1 }]\n',
        "fault 2 OutOfRange",
        "input 0: offset is -1, from 0 to 97200000000",
    ),
    (
        "[[service.stream]]\npid = 257\nout = 512\nleak = 2000000\n",
        "stream = []\n",
        "fault 2 OutOfRange",
        "the plan has 0 streams, from 1 to 64",
    ),
    (
        "leak = 2000000\n",
        "leak = 2000000\n[[service]]\ninput = 0\nprogram = 200\nservice = 500\npmt = 300\nstream = []\n",
        "fault 3 ServiceTaken",
        "services 0 and 1 both have the number 500",
    ),
    (
        "leak = 2000000\n",
        "leak = 2000000\n[[service.stream]]\npid = 258\nout = 513\nleak = 1000\n[[service.stream]]\npid = 257\nout = 512\nleak = 2000000\n",
        "fault 4 PidTaken",
        "service 0 names input PID 0x0101 twice: streams 0 and 2",
    ),
    (
        "leak = 2000000\n",
        "leak = 2000000\n[[service]]\ninput = 0\nprogram = 200\nservice = 501\npmt = 300\n[[service.stream]]\npid = 257\nout = 513\nleak = 1000\n",
        "fault 4 PidTaken",
        "input 0's PID 0x0101 has two rows that differ: service 0's stream 0 has out 0x0200 and leak 2000000, service 1's stream 0 has out 0x0201 and leak 1000",
    ),
    (
        "leak = 2000000\n",
        "leak = 2000000\n[[service]]\ninput = 0\nprogram = 200\nservice = 501\npmt = 300\n[[service.stream]]\npid = 258\nout = 512\nleak = 1000\n",
        "fault 4 PidTaken",
        "service 0's stream 0 and service 1's stream 0 both have the output PID 0x0200",
    ),
    (
        "leak = 2000000\n",
        "leak = 2000000\n[[service]]\ninput = 0\nprogram = 200\nservice = 501\npmt = 300\n[[service.stream]]\npid = 258\nout = 256\nleak = 1000\n",
        "fault 4 PidTaken",
        "service 0's PMT and service 1's stream 0 both have the output PID 0x0100",
    ),
    (
        "leak = 2000000\n",
        "leak = 2000000\n[[service]]\ninput = 0\nprogram = 200\nservice = 501\npmt = 256\nstream = []\n",
        "fault 4 PidTaken",
        "service 0's PMT and service 1's PMT both have the output PID 0x0100",
    ),
    (
        "program = 100",
        "program = 101",
        "fault 5 NoProgram",
        "service 500 (input 0, program 101): the input has no such program; its PAT has program 100",
    ),
    (
        "pid = 257",
        "pid = 258",
        "fault 8 RateMissing",
        "service 500 (input 0, program 100): its PMT names PID 0x0101 (stream type 0x02), and no row has it",
    ),
    (
        "leak = 2000000",
        "leak = 2000000\n[[service.stream]]\npid = 258\nout = 513\nleak = 1000",
        "fault 9 StreamUnknown",
        "service 500 (input 0, program 100): a row has PID 0x0102, and its PMT doesn't name it",
    ),
    (
        "period = 100",
        "period = 5",
        "fault 11 RoundTooLong",
        "period is 5, at least 6",
    ),
    (
        "period = 100",
        "period = 501",
        "fault 12 PeriodTooLong",
        "period is 501, at most 500",
    ),
]

# Edits of keys, and the place that is told of a text that is no plan. `[[input]]` is line 12, `[[service]]` line 16, and the keys of the
# last table are lines 22 to 24.
WRONG_KEYS = [
    ("ring = 64\n", "", "missing key 'ring' at the top, in front of the first [[..]]"),
    ("offset = 0\n", "", "line 12: missing key 'offset'"),
    ("pmt = 256\n", "", "line 16: missing key 'pmt'"),
    ("leak = 2000000\n", "", "line 21: missing key 'leak'"),
    ("1504000\noffset", "true\noffset", "line 14: invalid type: boolean `true`, expected an integer in `input.rate`"),
    ("offset = 0", 'offset = 0\nsize = "204"', 'line 16: invalid type: string "204", expected an integer in `input.size`'),
    ("\nleak", "\nrate = 5\nleak", "line 24: unknown field `rate` in `service.stream`"),
    ("leak = 2000000\n", 'leak = 1000\n[[service.stream]]\npid = 258\nout = "513"\nleak = 1000\n', 'line 27: invalid type: string "513", expected an integer in `service.stream.out`'),
    ("[[input]]", "[input]", "line 12: [[input]] is meant where [input] stands"),
    ("[[service.stream]]", "[[service.streams]]", "line 21: unknown field `streams` in `service`"),
    ("[[input]]", "[[inputs]]\n[[input]]", "line 12: unknown field `inputs`"),
    ('transport_descriptors = ""', 'transport_descriptors = "410"', "line 11: transport_descriptors has an odd number of hex digits, 3"),
    ('transport_descriptors = ""', 'transport_descriptors = "41 00"', "line 11: transport_descriptors has byte 0x20 at place 2, which is no hex digit"),
]

# SDTs in place of the input's, none among them, and what is told of the service. The first has a row of another service, the second a
# row without a descriptor, and the third one whose free_CA_mode is 1.
SDTS = [
    (NULL, "fault 6 NoSdtRow", "the input has no complete SDT"),
    (table_packet(0x0011, "42f0180001c100000002ff0065fc800748050101410142"), "fault 6 NoSdtRow", "the input's SDT has no row of it"),
    (
        table_packet(0x0011, "42f0110001c100000002ff0064fc8000"),
        "fault 6 NoSdtRow",
        "its row of the input's SDT has no service descriptor whose lengths fill it",
    ),
    (table_packet(0x0011, "42f0180001c100000002ff0064fc900748050101410142"), "fault 7 CaFound", "free_CA_mode is 1 in its row of the SDT"),
]


# How a service gets a description: the program of the example's input, at the input's rate.
MENDED = (
    "\nffmpeg writes a file with one, and with other PIDs: ffmpeg -i 'x.ts' -map 0:p:100 -c copy -copy_unknown -mpegts_service_id 100 -metadata service_name='x'"
    " -muxrate 1504000 new.ts"
)


class Plans(CommandCase):
    def at_fault(self, plan, fault, place, files=None):
        """`check` tells this fault and this place of a plan's text."""
        done = self.refuses(plan, fault, files)
        self.assertEqual(done.err, f"{fault}\n{FAULTS[fault]}\n{place}\n")

    def test_a_refused_plan_is_told_where_it_is_at_fault(self):
        for old, new, fault, place in CAUSES:
            with self.subTest(new):
                self.assertIn(old, PLAN)
                self.at_fault(PLAN.replace(old, new, 1), fault, place)

    def test_a_service_that_its_input_does_not_describe_is_refused(self):
        for sdt, fault, place in SDTS:
            with self.subTest(place):
                files = {"x.ts": PAT + PMT + sdt + packets(range(5))}
                self.at_fault(PLAN, fault, f"service 500 (input 0, program 100): {place}{MENDED if fault == 'fault 6 NoSdtRow' else ''}", files)

    def test_a_wrong_key_is_told_with_its_line(self):
        """Inputs aren't looked for."""
        for old, new, place in WRONG_KEYS:
            with self.subTest(new or old):
                self.assertIn(old, PLAN)
                self.at_fault(PLAN.replace(old, new, 1), "fault 1 BadText", place, {})

    def test_bytes_that_are_no_text_are_told_with_their_line(self):
        """A letter in another code than UTF-8, and a text that is in another code from its start."""
        koeln = b'rate = 1504000\nnetwork_name = "K\xF6ln"\n'
        self.at_fault(koeln, "fault 1 BadText", "line 2: it is no UTF-8 text, from byte 0xF6 on", {})
        self.at_fault(b"\xFF\xFEr\0", "fault 1 BadText", "line 1: it is no UTF-8 text, from byte 0xFF on", {})

    def test_a_stream_is_no_plan(self):
        """Five packets are known as a stream, and four as no text."""
        self.at_fault(5 * NULL, "fault 1 BadText", "it is a transport stream; a plan is text", {})
        self.at_fault(4 * NULL, "fault 1 BadText", "line 1: it is no UTF-8 text, from byte 0xFF on", {})

    def test_a_text_is_refused_before_inputs_are_looked_for(self):
        self.refuses("rate = ", "fault 1 BadText\n", {})
        self.refuses(PLAN.replace("rate = 1504000", "rate = 499999", 1), "fault 2 OutOfRange\n", {})
        self.refuses(PLAN + service(0, program=200), "fault 3 ServiceTaken\n", {})
        self.refuses(PLAN + service(1, program=200), "fault 4 PidTaken\n", {})
