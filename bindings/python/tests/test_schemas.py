import copy
import gc
import pickle
import threading
import time
import unittest
import weakref
from concurrent.futures import ThreadPoolExecutor

import flatc
from examples import JSON, TEXT


class Copies(unittest.TestCase):
    def setUp(self):
        self.schema = flatc.Schema(TEXT)
        self.wanted = self.schema.encode(JSON)

    def test_the_original_outlives_a_copy(self):
        for copied in (copy.copy, copy.deepcopy):
            other = copied(self.schema)
            self.assertIsNot(other, self.schema)
            self.assertEqual(other.encode(JSON), self.wanted)
            del other
            gc.collect()
            self.assertEqual(self.schema.encode(JSON), self.wanted)

    def test_a_copy_outlives_the_original(self):
        others = copy.copy(self.schema), copy.deepcopy(self.schema), copy.copy(copy.copy(self.schema))
        del self.schema
        gc.collect()
        for other in others:
            self.assertEqual(other.encode(JSON), self.wanted)
            self.assertEqual(other.text, TEXT.decode())

    def test_a_schema_conforms_to_its_copy(self):
        self.schema.conform(copy.copy(self.schema))

    def test_a_copy_of_a_subclass(self):
        class Named(flatc.Schema):
            name = ""

        named = Named(TEXT)
        named.name = "monster"
        other = copy.deepcopy(named)
        self.assertEqual((type(other), other.name, other.encode(JSON)), (Named, "monster", self.wanted))

    def test_a_pickled_schema(self):
        for protocol in range(pickle.HIGHEST_PROTOCOL + 1):
            other = pickle.loads(pickle.dumps(self.schema, protocol))
            self.assertEqual((other.text, other.encode(JSON)), (self.schema.text, self.wanted))

    def test_its_text_is_its_own(self):
        text = bytearray(TEXT)
        schema = flatc.Schema(text)
        text[:] = bytes(len(text))
        self.assertEqual(pickle.loads(pickle.dumps(schema)).encode(JSON), self.wanted)

    def test_it_reads_well(self):
        self.assertEqual(repr(self.schema), f"<flatc.Schema of {len(TEXT)} bytes>")


class Threads(unittest.TestCase):
    def setUp(self):
        self.schema = flatc.Schema(TEXT)

    def test_threads_use_one_schema(self):
        wanted = self.schema.encode(JSON)
        text = self.schema.decode(wanted)
        start = threading.Barrier(8)

        def work(_):
            start.wait()
            for _ in range(300):
                self.assertEqual(self.schema.encode(JSON), wanted)
                self.assertEqual(self.schema.decode(wanted), text)
                self.schema.verify(wanted)
                self.schema.conform(self.schema)
                with self.assertRaises(flatc.Refused):
                    self.schema.encode("{")

        with ThreadPoolExecutor(8) as pool:
            self.assertEqual([*pool.map(work, range(8))], [None] * 8)

    def test_each_thread_has_its_handle(self):
        together = threading.Barrier(4)

        def handle(_):
            together.wait()
            handle = self.schema._handles.own
            return id(handle), handle

        with ThreadPoolExecutor(4) as pool:
            handles = [*pool.map(handle, range(4)), (id(self.schema._handles.own), self.schema._handles.own)]
        self.assertEqual(len({number for number, _ in handles}), 5)

    def test_a_handle_ends_with_its_thread(self):
        seen = []

        def work():
            self.schema.encode(JSON)
            seen.append(weakref.ref(self.schema._handles.own))

        thread = threading.Thread(target=work)
        thread.start()
        thread.join()
        gc.collect()
        self.assertIsNone(seen[0]())

    def test_a_schema_may_end_in_another_thread(self):
        self.schema.encode(JSON)
        alone = [copy.copy(self.schema)]
        thread = threading.Thread(target=alone.clear)
        thread.start()
        thread.join()
        self.schema.encode(JSON)

    def test_other_threads_run_during_a_call(self):
        json = b'{"name": "Orc", "inventory": [' + b"200, " * (8 << 20) + b"1]}"
        times = []

        def work():
            times.append(time.perf_counter())
            self.schema.encode(json)
            times.append(time.perf_counter())

        thread = threading.Thread(target=work)
        thread.start()
        ticks = []
        while thread.is_alive():
            time.sleep(0.001)
            ticks.append(time.perf_counter())
        quarter = (times[1] - times[0]) / 4
        self.assertTrue(any(times[0] + quarter < tick < times[1] - quarter for tick in ticks), times)


if __name__ == "__main__":
    unittest.main()
