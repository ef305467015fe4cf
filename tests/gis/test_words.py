"""No message tells a user of an option that they do not have: those of Python and of QGIS have other words."""
import ast
import importlib.util
import re
import unittest

from fixtures import GIS
from relief_gis.parser import new_parser
from relief_gis.words import PYTHON, in_words

PACKAGE = GIS / "relief_gis"
# What the functions on arrays reach; the command's own module speaks to its users alone.
OF_ARRAYS = ("arguments", "arrays", "differences", "errors", "given", "grid_text", "heights", "labelled", "making",
             "nodata", "program", "sightline", "small_basins", "units")
OF_THE_COMMAND = ("command", "parser", "typed", "words")


def options_of(parser):
    """All options of the command."""
    found = set()
    for action in parser._actions:
        found.update(word for word in action.option_strings if word.startswith("--"))
        for one in (action.choices or {}).values() if isinstance(action.choices, dict) else ():
            found |= options_of(one)
    return found


OPTION = re.compile(rf"(?<![\w-])(?:{'|'.join(map(re.escape, sorted(options_of(new_parser()))))})(?![\w-])")


def text_of(node):
    """The text of a literal, with a 1 for each value that is put in."""
    if isinstance(node, ast.JoinedStr):
        return "".join(it.value if isinstance(it, ast.Constant) else "1" for it in node.values)
    return node.value


def messages_of(path):
    """The texts of a module that name an option among other words, without those of documentation."""
    tree = ast.parse(path.read_text())
    inside = {id(part) for node in ast.walk(tree) if isinstance(node, ast.JoinedStr) for part in ast.walk(node)
              if part is not node}
    plain = {id(node.value) for node in ast.walk(tree) if isinstance(node, ast.Expr)} | inside
    for node in ast.walk(tree):
        is_text = isinstance(node, ast.JoinedStr) or isinstance(node, ast.Constant) and isinstance(node.value, str)
        if is_text and id(node) not in plain and " " in text_of(node) and OPTION.search(text_of(node)):
            yield text_of(node)


class Words(unittest.TestCase):
    def left(self, names, vocabulary):
        """The messages of modules in which a vocabulary leaves an option of the command."""
        found = [message for name in names for message in messages_of(PACKAGE / f"{name}.py")]
        self.assertTrue(found)
        return [(it, in_words(it, vocabulary)) for it in found if OPTION.search(in_words(it, vocabulary))]

    def test_python(self):
        self.assertEqual(self.left(OF_ARRAYS, PYTHON), [])

    def test_qgis(self):
        place = GIS / "qgis" / "relief" / "labels.py"
        spec = importlib.util.spec_from_file_location("labels", place)
        labels = importlib.util.module_from_spec(spec)
        spec.loader.exec_module(labels)
        names = [path.stem for path in PACKAGE.glob("*.py") if path.stem not in OF_THE_COMMAND]
        self.assertEqual(self.left(names, labels.VOCABULARY), [])

    def test_some(self):
        self.assertEqual(in_words("eye 1.5 is no whole number of units of 1: --decimals 1 would do", PYTHON),
                         "eye 1.5 is no whole number of units of 1: scale=1 would do")
        past = "a height is past 10^15 units: "
        self.assertEqual(in_words(f"{past}give fewer decimals, or name the NODATA value", PYTHON),
                         f"{past}give a smaller scale=, or name the value without data by nodata=")


if __name__ == "__main__":
    unittest.main()
