"""The calls with which help(nlroute) begins."""
import pydoc
import re
import unittest

import nlroute


class Help(unittest.TestCase):
    def test_calls(self):
        """Twelve calls are the first that help() prints, and each runs."""
        page = pydoc.plain(pydoc.render_doc(nlroute))
        begin = page.partition("PACKAGE CONTENTS")[0]
        calls = re.findall(r"^ {8}(\S.*?) {2,}\S", begin.partition(">>>")[0], re.MULTILINE)
        self.assertEqual(len(calls), 12)
        scope = {name: getattr(nlroute, name) for name in nlroute.__all__}
        scope |= {"name": nlroute.IFLA_BOND_MIIMON, "value": 100, "index": 3}
        bond = bytes.fromhex("05000100 04000000 08000300 64000000")
        request = bytes(nlroute.Request.create("bond0"))
        for call in calls:
            with self.subTest(call):
                scope["data"] = request if "messages" in call else bond
                exec(f"{call}: pass" if call.startswith("for ") else call, scope)


if __name__ == "__main__":
    unittest.main()
