"""report_svg: what its pictures show, at few and at many orders."""
import random
import re

from common import content, path
from formats import FATES, read_report
from orders import in_turn, rows_at_random, written
from picture import Picture
from rows import Row


def rows_of_seed(count, seed):
    """Rows of all kinds with few ids, so that some are repeated or cancelled."""
    return rows_at_random(random.Random(seed), count, max(count // 4, 1), 20)


def limit(*row):
    return Row("L", *row)


class Pictures(Picture):
    def test_the_picture_of_the_demo_is_the_one_in_the_repository(self):
        done = self.script("report_svg", path("crates", "hm_tool", "stdout"), path("demo", "first.csv"))
        self.says(done, 0, out=content("demo", "first.svg"))

    def test_an_empty_report_says_so(self):
        texts = self.texts(self.picture(b"board 0 0\nend 0 0 0\n"))
        self.assertIn("Empty report: 0 orders of 2 files, 0 fills; no order rested", texts)
        self.assertIn("no orders: 2 files without rows", texts)
        self.assertIn("no fills", texts)

    def test_a_cancel_takes_its_order_out_of_the_lines(self):
        rows = [limit(1, "B", 10, 3), limit(2, "S", 12, 3), limit(3, "B", 11, 6), Row("C", 3, None, None, None),
                Row("C", 2, None, None, None), limit(4, "B", 9, 1)]
        found = self.picture(in_turn([rows]), self.made(written(rows), "orders"))
        (bid,), (ask,) = self.marks(found, "path", "bid"), self.marks(found, "path", "ask")
        heights = re.findall("V([0-9.]+)", bid.get("d"))
        start = re.match("M[0-9.]+ ([0-9.]+)", bid.get("d"))[1]
        self.assertEqual((len(heights), heights[1]), (2, start))
        # The ask ends where its order is taken out, a place and a half before the right edge.
        self.assertEqual(ask.get("d").count("H"), 3)
        self.assertLess(float(ask.get("d").split("H")[-1]), 1154 - 1.4 * (1154 - 134) / 6)

    def test_a_market_order_is_drawn_at_its_fills(self):
        rows = [limit(1, "B", 10, 3), limit(2, "B", 7, 3), Row("M", 3, "S", None, 9), Row("M", 4, "B", None, 9)]
        for files in ([], [self.made(written(rows), "orders")]):
            found = self.picture(in_turn([rows]), *files)
            told = [it[0].text for it in self.marks(found, "circle", "fill") if len(it)]
            self.assertEqual(sorted(told), ["fill 1: order 3 took from order 1, at 10, the quantity 3",
                                            "fill 2: order 3 took from order 2, at 7, the quantity 3"])
        rows = rows[3:]
        self.assertIn("no fills", self.texts(self.picture(in_turn([rows]), self.made(written(rows), "orders"))))

    def test_two_fills_of_one_price_and_order_are_both_seen(self):
        rows = [limit(1, "B", 10, 3), limit(2, "B", 10, 3), limit(3, "S", 10, 6)]
        circles = [it for it in self.marks(self.picture(in_turn([rows])), "circle", "fill") if len(it)]
        self.assertEqual(len(circles), 2)
        self.assertGreater(abs(float(circles[0].get("cx")) - float(circles[1].get("cx"))), 4)

    def test_best_bid_and_ask_run_where_the_files_are_named(self):
        rows = [limit(1, "B", 10, 3), limit(2, "S", 12, 3), limit(3, "B", 11, 6), limit(4, "S", 10, 6)]
        file = self.made(written(rows), "orders")
        report = in_turn([rows])
        found = self.picture(report, file)
        (bid,), (ask,) = self.marks(found, "path", "bid"), self.marks(found, "path", "ask")
        self.assertEqual((bid.get("d").count("V"), ask.get("d").count("V")), (2, 0))
        self.assertIn("best bid", self.texts(found))
        self.assertFalse(self.marks(self.picture(report), "path", "bid"))
        self.assertIn("name the files too for the best bid and ask", self.picture_text)
        done = self.script("report_svg", self.made(report, "report"), self.made(b"L,1,B,9,3\n", "orders"))
        self.is_refused(done, "is no report of these files: its line 2 has")

    def test_many_orders_are_gathered_and_the_tallest_bar_fills_its_lane(self):
        files = [rows_of_seed(2000, seed) for seed in range(8)]
        found = self.picture(in_turn(files))
        self.assertIn("Orders, gathered: each column is 32 orders", self.picture_text)
        tall = {}
        for fate in FATES:
            for bar in self.marks(found, "rect", fate):
                if len(bar):
                    tall[bar[0].text] = tall.get(bar[0].text, 0) + float(bar.get("height"))
        self.assertAlmostEqual(max(tall.values()), 170 / 8 - 2, delta=.1)
        self.assertLess(len(self.picture_text), 3000000)
        cells = [float(it.get("fill-opacity")) for it in self.marks(found, "rect", "fill")]
        self.assertIn("Fills, gathered", self.picture_text)
        self.assertEqual((max(cells), min(cells)), (1, .15))

    def test_what_a_plain_replay_prints_is_a_report(self):
        for seed in range(20):
            files = [rows_of_seed(seed * 7, seed + file) for file in range(1 + seed % 3)]
            report = read_report(self.made(in_turn(files)))
            self.assertEqual(report.board, [seed * 7] * len(files))

    def test_odd_sizes(self):
        wide = [limit(at, "BS"[at % 2], 4294967295 if at % 3 else 1, 4294967295) for at in range(40)]
        for rows in (wide[:1], wide[1:2], wide, [limit(1, "B", 1, 1)] * 600):
            self.picture(in_turn([rows]), self.made(written(rows), "orders"))
        self.picture(in_turn([[limit(at, "B", 1, 1)] for at in range(8)]))
