"""The picture of a report, looked at by tests."""
import xml.etree.ElementTree as tree

from common import Case

SVG = "{http://www.w3.org/2000/svg}"
WIDTH = 1200


class Picture(Case):
    def picture(self, report, *files):
        """The picture of a report, all of whose marks and words are on the page."""
        done = self.script("report_svg", self.made(report, "report"), *files)
        self.assertEqual((done.returncode, done.stderr), (0, b""))
        self.picture_text = done.stdout.decode()
        found = tree.fromstring(done.stdout)
        for it in found.iter(SVG + "text"):
            wide = 7.5 * len(it.text) * {"": 1, "title": 1.4, "end": 0, "mid": .5}[it.get("class")]
            self.assertLess(float(it.get("x")) + wide, WIDTH, it.text)
        return found

    def texts(self, found):
        return [it.text for it in found.iter(SVG + "text")]

    def marks(self, found, tag, kind):
        return [it for it in found.iter(SVG + tag) if it.get("class") == kind]
