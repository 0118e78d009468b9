import pickle
import re
import unittest

import flatc
from flatc._library import fault_name


def constant_name(name: str) -> str:
    return re.sub(r"(?<=[a-z0-9])(?=[A-Z])", "_", name).upper()


class Faults(unittest.TestCase):
    def test_their_names_are_the_library_s(self):
        names = {number: fault_name(number) for number in range(256)}
        reported = {number for number, name in names.items() if name not in (None, "Memory")}
        self.assertEqual({int(it) for it in flatc.Fault}, reported)
        for fault in flatc.Fault:
            name = constant_name(names[fault])
            prefixes = "", "BUFFER_", "JSON_"
            self.assertIn(fault.name, [prefix + name for prefix in prefixes])

    def test_a_number_is_a_fault(self):
        with self.assertRaises(flatc.Refused) as caught:
            flatc.Schema("")
        self.assertEqual(flatc.Fault(caught.exception.number), flatc.Fault.BAD_ROOT)
        self.assertEqual(fault_name(flatc.Fault.BAD_ROOT), "BadRoot")

    def test_pickled(self):
        self.assertIs(pickle.loads(pickle.dumps(flatc.Fault.BAD_JSON)), flatc.Fault.BAD_JSON)


if __name__ == "__main__":
    unittest.main()
