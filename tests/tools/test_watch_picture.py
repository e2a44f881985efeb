"""The picture of the screen of `tools/watch` in the pages is what the tool shows."""

import unittest

from watch_picture import PICTURE, draw, svg


class Pictured(unittest.TestCase):
    def test_screen(self):
        self.assertEqual(svg(draw()), PICTURE.read_text(), "tests/watch_picture.py draws it anew")


if __name__ == "__main__":
    unittest.main()
