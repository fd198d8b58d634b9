"""The tests of embedding/python/hoxburen.py: what comes out is compared with what Python makes without the engine."""

import ctypes
import gc
import os
import pydoc
import sys
import tempfile
import threading
import unittest
from array import array
from itertools import islice

sys.path.insert(0, os.path.join(os.path.dirname(os.path.abspath(__file__)), "..", "..", "embedding", "python"))
import hoxburen
from hoxburen import Number, Pause


def network(*kinds, capacity=4):
    """A chain: the first process feeds the channel x, the last reads y, and those between have channels c1, c2, .."""
    names = ["x", *(f"c{n}" for n in range(1, len(kinds) - 2)), "y"]
    processes = [f"    {{ name = 'p{n}', kind = '{kind.split()[0]}', args = [{', '.join(kind.split()[1:])}] }},\n" for n, kind in enumerate(kinds)]
    channels = [f"    {{ name = '{name}', from = 'p{n}', to = 'p{n + 1}', capacity = {capacity} }},\n" for n, name in enumerate(names)]
    return f"version = 1\nprocess = [\n{''.join(processes)}]\nchannel = [\n{''.join(channels)}]\n"


DOUBLER = network("input", "scale 2", "drain")
NEGATER = network("input", "scale -1", "drain")
NOT = network("input_flags", "not", "drain_flags")
# Two sums of the same two inputs.
TWO = """version = 1
process = [
    { name = 'a', kind = 'input' }, { name = 'b', kind = 'input' }, { name = 'ca', kind = 'copy' }, { name = 'cb', kind = 'copy' },
    { name = 'plus', kind = 'add' }, { name = 'minus', kind = 'sub' }, { name = 'p', kind = 'drain' }, { name = 'm', kind = 'drain' },
]
channel = [
    { name = 'a', from = 'a', to = 'ca' }, { name = 'b', from = 'b', to = 'cb' },
    { name = 'a1', from = 'ca', to = 'plus' }, { name = 'a2', from = 'ca', out = 1, to = 'minus' },
    { name = 'b1', from = 'cb', to = 'plus', in = 1 }, { name = 'b2', from = 'cb', out = 1, to = 'minus', in = 1 },
    { name = 'plus', from = 'plus', to = 'p' }, { name = 'minus', from = 'minus', to = 'm' },
]
"""


class Words(unittest.TestCase):
    def doubled(self, words, count):
        with hoxburen.open(DOUBLER) as flow:
            flow["x"].feed(words)
            self.assertEqual(list(flow["y"]), [2 * it for it in range(count)])

    def test_from_any_row_of_words(self):
        numbers = range(30)
        kept = array("Q", [9, *numbers, 9])
        twice = array("q", [it // 2 for it in range(60)])
        for words in (
            list(numbers), tuple(numbers), numbers, iter(numbers), (it for it in numbers), array("Q", numbers), array("q", numbers),
            memoryview(kept)[1:-1], memoryview(bytes(array("Q", numbers))).cast("Q"), (ctypes.c_uint64 * 30)(*numbers), (ctypes.c_int64 * 30)(*numbers),
            memoryview(twice)[::2], memoryview(array("Q", reversed(numbers)))[::-1],
        ):  # fmt: skip
            with self.subTest(type(words)):
                self.doubled(words, 30)

    def test_buffers_are_read_where_they_are(self):
        words = array("Q", range(4))
        with hoxburen.open(DOUBLER) as flow:
            self.assertEqual(flow["x"].offer(words), 4)
            words.append(5)  # nothing holds it after the call
            self.assertEqual(sys.getrefcount(words), 2)

    def test_others_are_refused(self):
        with hoxburen.open(DOUBLER) as flow:
            for words in (b"12345678", bytearray(8), array("d", [1.0]), array("i", [1, 2]), memoryview(array("B", bytes(16))).cast("B"), "12", 5, [1.5], ["1"], [None]):
                with self.subTest(words), self.assertRaises(TypeError):
                    flow["x"].feed(words)
            with self.assertRaises(TypeError):
                flow["x"].feed(memoryview(bytes(32)).cast("Q", [2, 2]))
            for word in (1 << 64, -(1 << 63) - 1):
                with self.assertRaises(OverflowError):
                    flow["x"].feed([1, word])
            self.assertEqual(flow["x"].held, 0)

    def test_words_with_a_sign(self):
        with hoxburen.open(NEGATER) as flow:
            flow["x"].feed([1, -2, (1 << 64) - 3, -(1 << 63)])
            self.assertEqual(list(islice(flow["y"].signed, 2)), [-1, 2])
            self.assertEqual(flow["y"].signed.drain(), array("q", [3, -(1 << 63)]))
            flow["x"].feed([5])
            self.assertEqual(flow["y"].drain(), array("Q", [(1 << 64) - 5]))

    def test_flags(self):
        with hoxburen.open(NOT) as flow:
            flow["x"].feed([True, False, 1, 0])
            self.assertEqual(list(flow["y"]), [0, 1, 0, 1])
            with self.assertRaises(hoxburen.FlagRefused) as refused:
                flow["x"].feed([1, 0, 2, 1])
            self.assertEqual((refused.exception.number, refused.exception.taken), (Number.NO_FLAG, 2))
            self.assertEqual(list(flow["y"]), [0, 1])
            with self.assertRaises(hoxburen.FlagRefused):
                flow["x"].feed([1, 0] * 20 + [7])
                list(flow["y"])
            self.assertEqual(flow["x"].waiting, 0)


class Draining(unittest.TestCase):
    def test_into_a_buffer(self):
        for buffer in (array("Q", bytes(80)), array("q", bytes(80)), memoryview(bytearray(80)).cast("Q"), (ctypes.c_uint64 * 10)()):
            with self.subTest(type(buffer)), hoxburen.open(DOUBLER) as flow:
                flow["x"].feed(range(1, 8))
                self.assertEqual(flow["y"].drain_into(buffer), 7)
                self.assertEqual(list(buffer), [2, 4, 6, 8, 10, 12, 14, 0, 0, 0])
                flow["x"].feed(range(100))
                self.assertEqual(flow["y"].drain_into(buffer), 10)
                self.assertEqual(list(buffer), list(range(0, 20, 2)))
                self.assertEqual(flow["y"].drain(), array("Q", range(20, 200, 2)))

    def test_buffers_that_do_not_do(self):
        with hoxburen.open(DOUBLER) as flow:
            for buffer in (bytes(8), memoryview(bytes(8)).cast("Q"), array("i", [0, 0]), [0, 0], memoryview(array("Q", range(4)))[::2]):
                with self.subTest(type(buffer)), self.assertRaises(TypeError):
                    flow["y"].drain_into(buffer)

    def test_at_most(self):
        with hoxburen.open(DOUBLER) as flow:
            flow["x"].feed(range(10000))
            self.assertEqual(len(flow["y"].drain(0)), 0)
            self.assertEqual(flow["y"].drain(3), array("Q", [0, 2, 4]))
            self.assertEqual(list(islice(flow["y"], 3)), [6, 8, 10])
            self.assertEqual(flow["y"].drain(), array("Q", range(12, 20000, 2)))

    def test_of_a_network_that_writes_for_ever(self):
        with hoxburen.open(network("count_up", "scale 3", "drain")) as flow:
            self.assertEqual(list(islice(flow["y"], 1000)), list(range(0, 3000, 3)))
            self.assertEqual(flow["y"].drain(5000), array("Q", range(3000, 18000, 3)))
            self.assertEqual(flow.advance(10), Pause.CUT)

    def test_words_that_nobody_takes_wait(self):
        with hoxburen.open(TWO) as flow:
            flow["a"].feed(range(1000))
            self.assertEqual(flow["plus"].drain(), array("Q"))
            self.assertGreater(flow["a"].waiting, 900)
            flow["b"].feed([1] * 1000)
            self.assertEqual(list(flow["plus"]), [it + 1 for it in range(1000)])
            self.assertGreater(flow["minus"].waiting, 900)
            self.assertEqual(list(flow["minus"].signed), [it - 1 for it in range(1000)])
            self.assertEqual((flow["a"].waiting, flow["minus"].waiting), (0, 0))

    def test_side_by_side(self):
        with hoxburen.open(TWO) as flow:
            flow["a"].feed(range(500))
            flow["b"].feed(range(500))
            self.assertEqual(list(zip(flow["plus"], flow["minus"])), [(2 * it, 0) for it in range(500)])


class UnderControl(unittest.TestCase):
    def test_offer_advance_poll(self):
        with hoxburen.open(DOUBLER) as flow:
            x, y, buffer = flow["x"], flow["y"], array("Q", bytes(80))
            self.assertEqual((x.capacity, x.may_feed, y.is_full), (4, True, False))
            self.assertEqual(x.offer(range(10)), 4)
            self.assertEqual((x.held, x.may_feed, x.offer([1])), (4, False, 0))
            self.assertEqual(y.poll(buffer), 0)
            self.assertEqual(flow.advance(), Pause.STARVED)
            self.assertTrue(x.is_starved)
            self.assertEqual(x.offer(range(4, 10)), 4)
            self.assertEqual(flow.advance(), Pause.BLOCKED)
            self.assertEqual((flow.verdict, y.is_full, y.held, y.capacity), (Pause.BLOCKED, True, 4, 4))
            self.assertEqual((y.poll(buffer), list(buffer[:4])), (4, [0, 2, 4, 6]))
            self.assertEqual(flow.advance(1), Pause.CUT)
            x.end()
            self.assertEqual(flow.advance(), Pause.DEADLOCK)
            self.assertEqual((y.poll(buffer), list(buffer[:4])), (4, [8, 10, 12, 14]))
            # 8 words read and written, and 2 stops.
            self.assertEqual((flow.entries, flow.growths), (18, 0))

    def test_ends(self):
        with hoxburen.open(network("input", "take 2", "drain")) as flow:
            flow["x"].feed(range(9))
            self.assertEqual(list(flow["y"]), [0, 1])
            self.assertEqual(flow.verdict, Pause.TERMINATED)
        with hoxburen.open(DOUBLER) as flow:
            flow["x"].feed(range(100))
            flow["x"].end()
            self.assertTrue(flow["x"].has_ended)
            with self.assertRaises(hoxburen.InputEnded) as refused:
                flow["x"].feed([1])
            self.assertEqual(refused.exception.number, Number.ENDED)
            with self.assertRaises(hoxburen.InputEnded):
                flow["x"].offer([1])
            self.assertEqual(len(flow["y"].drain()), 100)
            self.assertEqual(flow.verdict, Pause.DEADLOCK)
            flow["x"].end()


class Opening(unittest.TestCase):
    def test_from_a_path_or_a_text(self):
        with tempfile.TemporaryDirectory() as folder:
            path = os.path.join(folder, "net.toml")
            with open(path, "w") as file:
                file.write(DOUBLER)
            import pathlib

            for source in (path, pathlib.Path(path), DOUBLER, DOUBLER.encode()):
                with hoxburen.open(source) as flow:
                    self.assertEqual((list(flow.inputs), list(flow.outputs)), (["x"], ["y"]))
                hoxburen.check(source)
            with self.assertRaises(FileNotFoundError):
                hoxburen.open(os.path.join(folder, "none"))

    def test_named_channels(self):
        with hoxburen.open(TWO) as flow:
            self.assertEqual((list(flow.inputs), list(flow.outputs)), (["a", "b"], ["plus", "minus"]))
        with hoxburen.open(TWO, outputs=["minus"]) as flow:
            self.assertEqual((list(flow.inputs), list(flow.outputs)), (["a", "b"], ["minus"]))
            flow["a"].feed(range(100))
            flow["b"].feed(range(100))
            self.assertEqual(list(flow["minus"]), [0] * 100)  # plus is read by its own drain
        with hoxburen.open(TWO, "a", "plus") as flow:
            self.assertEqual((list(flow.inputs), list(flow.outputs)), (["a"], ["plus"]))
        for inputs, outputs, number in (
            (["z"], [], Number.NO_INPUT), (["a1"], [], Number.NO_INPUT), ([], ["a1"], Number.NO_OUTPUT), (["a", "a"], [], Number.TWICE),
            (["a b"], [], Number.NO_INPUT), ([""], [], Number.NO_INPUT), ([], ["plus "], Number.NO_OUTPUT), (["\u00e9"], [], Number.NO_INPUT),
        ):  # fmt: skip
            with self.subTest(inputs=inputs, outputs=outputs), self.assertRaises(hoxburen.ChannelRefused) as refused:
                hoxburen.open(TWO, inputs, outputs)
            self.assertEqual(refused.exception.number, number)
        with hoxburen.open(TWO) as flow, self.assertRaises(LookupError) as refused:
            flow["c"]
        self.assertEqual(refused.exception.number, Number.NO_CHANNEL)
        self.assertIn("plus", str(refused.exception))

    def test_refused_descriptions(self):
        for call in (hoxburen.check, hoxburen.run, hoxburen.open):
            with self.assertRaises(hoxburen.DescriptionRefused) as refused:
                call(DOUBLER.replace("scale", "scael"))
            self.assertEqual(refused.exception.number, Number.KIND)
            self.assertIn("scael", str(refused.exception))
            self.assertIsInstance(refused.exception, ValueError)
        with self.assertRaises(hoxburen.DescriptionRefused) as refused:
            hoxburen.check(DOUBLER + "#" * (1 << 20))
        self.assertEqual(refused.exception.number, Number.INPUT)
        long = "k" * 5000
        with self.assertRaises(hoxburen.DescriptionRefused) as refused:
            hoxburen.check(f"version = 1\n{long} = 1\nprocess = []\n")
        self.assertEqual(refused.exception.number, Number.KEYS)

    def test_run(self):
        counted = hoxburen.run("version = 1\nprocess = [{ name = 's', kind = 'count', args = [1, 3] }, { name = 't', kind = 'sink', args = [3] }]\nchannel = [{ name = 'c0', from = 's', to = 't' }]\n")
        self.assertEqual(counted.end, hoxburen.End.TERMINATED)
        self.assertEqual(counted.report.splitlines()[3], "channel c0 put 3 left 0 capacity 1")
        # More channels than a short buffer has room for in the report.
        end, report = hoxburen.run(network("input", *["scale 1"] * 60, "drain"))
        self.assertEqual((end, len(report.splitlines())), (hoxburen.End.DEADLOCK, 1 + 62 + 61 + 1))

    def test_report(self):
        with hoxburen.open(DOUBLER) as flow:
            flow["x"].feed([1])
            flow.advance()
            self.assertEqual(flow.report().splitlines(), [
                "starved", "process p0 stopped", "process p1 reads x", "process p2 stopped", "channel x left 0 capacity 4", "channel y left 1 capacity 4", "entries 4 growths 0",
            ])  # fmt: skip


class Closing(unittest.TestCase):
    def test_closed(self):
        flow = hoxburen.open(DOUBLER)
        flow.close()
        flow.close()
        self.assertTrue(flow.is_closed)
        for call in (
            flow.advance, flow.report, lambda: flow.verdict, lambda: flow.entries, lambda: flow["x"].feed([1]), lambda: flow["x"].offer([1]), flow["x"].end,
            lambda: flow["x"].held, lambda: flow["x"].may_feed, lambda: list(flow["y"]), flow["y"].drain, lambda: flow["y"].poll(array("Q", [0])),
        ):  # fmt: skip
            with self.assertRaises(hoxburen.FlowClosed) as refused:
                call()
            self.assertEqual(refused.exception.number, Number.CLOSED)
        self.assertIn("closed", repr(flow))

    def test_forgotten_flows_are_closed(self):
        def memory():
            with open("/proc/self/statm") as file:
                return int(file.read().split()[1]) * os.sysconf("SC_PAGESIZE")

        large = network("input", "scale 2", "drain", capacity=60000)
        for _ in range(5):
            hoxburen.open(large, ["x"], ["y"])
        gc.collect()
        before = memory()
        for _ in range(300):
            hoxburen.open(large, ["x"], ["y"])
        gc.collect()
        self.assertLess(memory() - before, 50 << 20)


class Threads(unittest.TestCase):
    def run_all(self, *calls):
        failed = []

        def guarded(call):
            try:
                call()
            except BaseException as why:
                failed.append(why)

        threads = [threading.Thread(target=guarded, args=(it,)) for it in calls]
        for it in threads:
            it.start()
        for it in threads:
            it.join()
        self.assertEqual(failed, [])

    def test_a_flow_each(self):
        def use():
            with hoxburen.open(DOUBLER) as flow:
                for start in range(0, 20000, 500):
                    flow["x"].feed(array("Q", range(start, start + 500)))
                    self.assertEqual(flow["y"].drain(), array("Q", range(2 * start, 2 * start + 1000, 2)))

        self.run_all(use, use)

    def test_a_shared_flow(self):
        sums = []
        with hoxburen.open(DOUBLER) as flow:

            def use():
                got = 0
                for _ in range(2000):
                    flow["x"].feed([1])
                    got += sum(flow["y"].drain(1))
                sums.append(got)

            self.run_all(use, use, use)
            self.assertEqual(sum(sums) + sum(flow["y"]), 3 * 2 * 2000)


class Help(unittest.TestCase):
    def test_each_public_name_has_a_text(self):
        text = pydoc.render_doc(hoxburen, renderer=pydoc.plaintext)
        self.assertIn("for word in flow[", text)
        for name in hoxburen.__all__:
            it = getattr(hoxburen, name)
            self.assertTrue(it.__doc__, name)
            for member in vars(it) if isinstance(it, type) else ():
                if not member.startswith("_") and (callable(getattr(it, member)) or isinstance(vars(it)[member], property)):
                    self.assertTrue(getattr(it, member).__doc__, f"{name}.{member}")

    def test_version(self):
        self.assertEqual(hoxburen.version(), 100)


if __name__ == "__main__":
    unittest.main()
