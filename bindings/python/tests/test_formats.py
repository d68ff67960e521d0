"""Tests of the formats of languages: each field and row of the list that they are written from."""

import dataclasses
import pathlib
import sys
import unittest

from jadvolni import Format, ParseError, formats, parse

TOOLS = pathlib.Path(__file__).resolve().parents[3] / "tools"


def groups():
    """The languages with their rows."""
    sys.path.insert(0, str(TOOLS))
    try:
        from row_data import LANGUAGES, groups_of
    finally:
        sys.path.remove(str(TOOLS))
    return groups_of(LANGUAGES)


class Languages(unittest.TestCase):
    """The fields and rows of tools/languages.txt, by jadvolni.formats."""

    def test_fields(self):
        standard = dataclasses.asdict(Format())
        for group in groups():
            format = getattr(formats, group.name.upper())
            for name, value in {**standard, **dict(group.fields or ())}.items():
                is_byte = standard[name] is None and value is not None
                with self.subTest(language=group.name, field=name):
                    self.assertEqual(getattr(format, name), bytes([value]) if is_byte else value)

    def test_rows(self):
        for group in groups():
            format = getattr(formats, group.name.upper())
            for row in group.rows:
                with self.subTest(language=group.name, text=row.text):
                    name, numbers = row.answer
                    if name == "Ok":
                        self.assertEqual(parse(row.text, row.type, format), numbers[0])
                        continue
                    with self.assertRaises(ParseError) as caught:
                        parse(row.text, row.type, format)
                    error = caught.exception
                    self.assertEqual((error.kind, error.place), (name, numbers[0]))


if __name__ == "__main__":
    unittest.main()
