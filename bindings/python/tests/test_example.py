"""The example finds lists in messages that Linux sent: those of runs/plain/captured."""
import contextlib
import importlib.util
import io
import os
import re
import unittest

PYTHON = os.path.dirname(os.path.dirname(os.path.realpath(__file__)))
CAPTURED = os.path.join(PYTHON, "../../runs/plain/captured")
MESSAGE = re.compile(r"^> message ([0-9a-f]+)\n((?:[^>#\n].*\n)*)", re.MULTILINE)
INFO_DATA = re.compile(r"^    IFLA_INFO_DATA \((\w+)\)\n((?:      .*\n)*)", re.MULTILINE)


def example():
    """Returns the example as a module."""
    spec = importlib.util.spec_from_file_location("links", os.path.join(PYTHON, "examples/links.py"))
    module = importlib.util.module_from_spec(spec)
    spec.loader.exec_module(module)
    return module


class Example(unittest.TestCase):
    def test_captured(self):
        links = example()
        with open(CAPTURED, encoding="utf-8") as file:
            found = MESSAGE.findall(file.read())
        count = 0
        for digits, lines in found:
            data = INFO_DATA.search(lines)
            if not data:
                continue
            count += 1
            links.buffers = lambda data=bytes.fromhex(digits): [data]
            printed = io.StringIO()
            with contextlib.redirect_stdout(printed):
                links.main()
            lines = data[2].replace("\n  ", "\n").removeprefix("  ")
            self.assertIn(f"  {data[1]}\n{lines}", printed.getvalue())
        self.assertGreater(count, 0)


if __name__ == "__main__":
    unittest.main()
