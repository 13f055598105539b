"""Every Python example of docs/LANGUAGES.md, run as it stands."""

import doctest
import unittest

from support import ROOT, sparse

PAGE = ROOT / "docs" / "LANGUAGES.md"
HEADING = "## From Python"


def section():
    """The section for Python."""
    return PAGE.read_text().split(HEADING, 1)[1].split("\n## ", 1)[0]


def blocks(text):
    """The fenced blocks of Python."""
    return [block.split("```", 1)[0] for block in text.split("```python\n")[1:]]


class Examples(unittest.TestCase):
    def test_examples(self):
        found = blocks(section())
        self.assertGreater(len(found), 2)
        for number, block in enumerate(found):
            if "scipy" in block and sparse is None:
                continue
            with self.subTest(block=number):
                self.run_block(f"example {number}", block)

    def run_block(self, name, block):
        """Each block stands alone: nothing is carried over."""
        example = doctest.DocTestParser().get_doctest(block, {}, name, None, 0)
        self.assertGreater(len(example.examples), 0)
        report = []
        results = doctest.DocTestRunner(verbose=False).run(example, out=report.append)
        self.assertEqual(results.failed, 0, "".join(report))


if __name__ == "__main__":
    unittest.main()
