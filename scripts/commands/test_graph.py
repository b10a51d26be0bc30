"""The picture of a run.

The run over the small files has nine slots: three of tables, five of the stream, which wait a millisecond at most, and one of null. At
1,504,000 bits a second five ninths are 835,555.6, three ninths 501,333.3 and one 167,111.1. A slot is 720 / 9 = 80 points wide. At a leak of 2,000,000 bits a
second one byte is in the buffer behind a packet: 160 / 640 of a point."""
import os
import re
import tempfile
import xml.etree.ElementTree as xml

from does import ENDED, FILES, LINES, RUN, CommandCase, does_once
from small import PLAN, TABLES, input_of, packets, service, settings, table_packet
from test_probe import pmt_of, sdt_of, section

GRAPH = [*RUN, "--graph", "g.svg"]

TAKEN = "it is the plan's file, an input or the output; the picture has to be another file"

SVG = "{http://www.w3.org/2000/svg}"


class Graphs(CommandCase):
    def drawn(self, words=GRAPH, files=None):
        """The picture of a run that ends well."""
        done = self.does(words, files)
        self.assertEqual(done.status, 0, done.err)
        return xml.fromstring(done.files["g.svg"])

    def texts(self, picture):
        return [text.text for text in picture.iter(f"{SVG}text")]

    def test_a_run_is_drawn(self):
        done = self.does(GRAPH)
        self.ends(done, 0, LINES, ENDED)
        self.assertEqual(sorted(done.files), ["g.svg", "out.ts", "x.toml", "x.ts"])
        picture = xml.fromstring(done.files["g.svg"])
        texts = self.texts(picture)
        for text in "A multiplex of 1504 kbit/s, 9 ms", "500 B: mean 835 kbit/s", "tables: mean 501 kbit/s", "null: mean 167 kbit/s", "500: 0x0200", "1.0 ms":
            self.assertIn(text, texts)
        self.assertEqual([text for text in texts if text.endswith(" kbit/s") and text[0].isdigit() and ":" not in text],
                         [f"{rate} kbit/s" for rate in range(0, 1_504, 200)])
        self.assertEqual([text for text in texts[1:] if text.endswith(" ms") and "." not in text], 2 * [f"{time} ms" for time in range(0, 9, 2)])
        service, tables = picture.iter(f"{SVG}polygon")
        self.assertEqual(len(service.get("points").split()), 4 * 9)
        self.assertTrue(service.get("points").startswith("100,300 180,300 "), "slot 0 is of a table")
        self.assertTrue(tables.get("points").startswith("100,60 180,60 "))
        level, = picture.iter(f"{SVG}polyline")
        self.assertEqual(len(level.get("points").split()), 2 * 5, "five slots have packets of the service")

    def test_a_long_run_has_as_many_pieces(self):
        """Of 20,000 packets in some 20,600 slots 64 stand in a piece, so that there are fewer than 480 and more than 240."""
        files = {"x.toml": PLAN, "x.ts": TABLES + packets(range(20_000))}
        level, = self.drawn(files=files).iter(f"{SVG}polyline")
        pieces = len(level.get("points").split()) // 2
        self.assertTrue(240 < pieces <= 480, pieces)

    def test_the_output_is_the_same(self):
        self.assertEqual(self.does(GRAPH).written, self.does(RUN).written)

    def test_a_name_that_is_read_is_refused(self):
        for name in "x.ts", "./x.ts", "x.toml", "out.ts":
            done = self.does([*RUN, "--graph", name])
            self.assertEqual((done.status, done.out, sorted(done.files)), (4, "", ["x.toml", "x.ts"]), name)
            self.assertEqual(done.err, f"fault file {name}\n{name}: {TAKEN}\n")

    def test_another_name_of_an_output_that_is_there_is_refused(self):
        """Before the run: the old output stays."""
        done = self.does([*RUN, "--graph", "./out.ts"], {**FILES, "out.ts": b"old"})
        self.assertEqual((done.status, done.out, done.files["out.ts"]), (4, "", b"old"))
        self.assertEqual(done.err, f"fault file ./out.ts\n./out.ts: {TAKEN}\n")

    def test_a_picture_that_does_not_fit_is_told(self):
        """A file that is longer than it may be can't be written: the multiplex has 1,692 bytes, the picture more."""
        done = self.does(GRAPH, room=2_000)
        self.assertEqual((done.status, done.out, sorted(done.files)), (4, LINES, ["g.svg.part", "out.ts", "x.toml", "x.ts"]))
        self.assertTrue(done.err.endswith("g.svg.part: the picture so far\n"), done.err)

    def test_a_picture_that_cannot_be_made_is_refused_before_the_run(self):
        done = self.does([*RUN, "--graph", "there/is/none/g.svg"])
        self.assertEqual((done.status, done.out, sorted(done.files)), (4, "", ["x.toml", "x.ts"]))
        self.assertTrue(done.err.startswith("fault file there/is/none/g.svg\nthere/is/none/g.svg: no new file can be made beside it: "), done.err)
        for name in ".", "/proc/version":
            done = self.does([*RUN, "--graph", name])
            self.assertEqual((done.status, done.out, sorted(done.files)), (4, "", ["x.toml", "x.ts"]))
            self.assertRegex(done.err, f"^fault file {name}\n{name}: (it can't be opened|no new file can be made beside it): ")

    def test_a_picture_takes_the_place_of_a_file(self):
        """It stays as it was where the run fails: the output has 1,692 bytes."""
        done = self.does(GRAPH, {**FILES, "g.svg": b"old"})
        self.assertEqual((done.status, sorted(done.files)), (0, ["g.svg", "out.ts", "x.toml", "x.ts"]))
        self.assertTrue(done.files["g.svg"].startswith(b"<svg "))
        done = self.does(GRAPH, {**FILES, "g.svg": b"old"}, room=1_000)
        self.assertEqual((done.status, done.files["g.svg"]), (4, b"old"))

    def test_names_are_drawn_as_they_are(self):
        """Those of the output's SDT, which has eight services in two packets: at most twenty characters, with what XML writes in another way, and a
        question mark where XML has no such character, as for U+FFFF."""
        names = ["A < B & C > D", "N" * 60, "", "No?va"]
        octets = [*(name.encode() for name in names[:3]), b"\x15No\xef\xbf\xbfva"]
        numbers = range(100, 104)
        pat = table_packet(0x0000, section("00", 1, "".join(f"{number:04x}{0xE100 + number:04x}" for number in numbers)))
        pmts = [table_packet(0x0100 + number, pmt_of([("02", 0x0200 + number, "")], number, 0x0200 + number)) for number in numbers]
        sdt = table_packet(0x0011, sdt_of(list(zip(numbers, octets))))
        stream = pat + b"".join(pmts) + sdt + b"".join(bytes([0x47, 0x02, number, 0x10]) + b"\xaa" * 184 for number in numbers)
        services = [service(number, number // 4, 100 + number % 4, 0x0200 + 100 + number % 4) for number in range(8)]
        files = {"x.toml": settings() + input_of() + input_of("y.ts") + "".join(services), "x.ts": stream, "y.ts": stream}
        keys = [re.sub(": mean .*", "", text) for text in self.texts(self.drawn(files=files)) if ": mean " in text]
        self.assertEqual(keys, [f"{500 + number} {names[number % 4][:20]}".rstrip() for number in range(8)] + ["tables", "null"])

    def test_a_service_that_ends_early_is_told(self):
        """Of 2,000 packets of one service and 10 of the other, a millisecond each: the tenth is in slot 24, and a piece has eight slots."""
        files = {"x.toml": settings() + input_of() + input_of("y.ts") + service() + service(1, 1),
                 "x.ts": TABLES + packets(range(2_000)), "y.ts": TABLES + packets(range(10))}
        first, second = [text for text in self.texts(self.drawn(files=files)) if text.startswith("50") and ": mean " in text]
        self.assertRegex(first, r"^500 B: mean \d+ kbit/s$")
        self.assertRegex(second, r"^501 B: mean \d+ kbit/s, up to 32 ms$")

    def test_another_name_of_the_output_is_refused(self):
        """It is found when the output has its name."""
        with tempfile.TemporaryDirectory() as folder:
            name = os.path.join(folder, "out.ts")
            done = does_once(["run", "--plan", "x.toml", "--out", name, "--graph", os.path.join(folder, ".", "out.ts")])
            self.assertEqual(done.status, 4)
            self.assertEqual(os.path.getsize(name), 1692)
