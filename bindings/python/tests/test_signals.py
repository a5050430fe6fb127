"""A handler of signals runs while a call of the library is at work, as often as there is a signal, and what it raises
ends the call. Each call here would go on for seconds. By order, not by time: a profile says when Python goes into a
function in C and comes back from it, and each signal is sent after the handler of the one before has run."""

import ctypes
import signal
import sys
import threading
import unittest
from pathlib import Path

import pytest
from s2union import _library as calls
from s2union_geo import Index, covering, interior

ZONE = {"type": "Polygon", "coordinates": [[[0, 0], [30, 5], [40, 40], [10, 30], [-5, 20], [0, 0]]]}
MOST, SIGNALS = 10**6, 3
LONG = ("coverings", "coverings_of_wkb", "outline", "pairs")


@pytest.mark.skipif(sys.platform != "linux", reason="elsewhere a signal waits for the end of a call")
class Signals(unittest.TestCase):
    def setUp(self):
        self.within, self.depth, self.has_handled, self.small = [], 0, threading.Event(), covering(ZONE, 20)
        self.asks, self.asked = (lambda: None), None
        signal.signal(signal.SIGUSR1, self.handle)
        self.addCleanup(signal.signal, signal.SIGUSR1, signal.SIG_IGN)

    def profile(self, frame, event, function):
        if getattr(function, "__self__", None) is calls:
            self.depth += {"c_call": 1, "c_return": -1, "c_exception": -1}.get(event, 0)
            if event == "c_call" and function.__name__ in LONG and not self.sender.ident:
                self.sender.start()

    def handle(self, number, frame):
        self.within.append(self.depth == 1 and frame.f_code is not Signals.profile.__code__)
        self.assertEqual(covering(ZONE, 20), self.small)  # a call inside of a call
        try:
            self.asks()
        except RuntimeError as error:
            self.asked = error
        self.has_handled.set()
        if len(self.within) == SIGNALS:
            raise KeyboardInterrupt

    def send(self):
        for _ in range(SIGNALS):
            self.has_handled.clear()
            signal.pthread_kill(threading.main_thread().ident, signal.SIGUSR1)
            self.has_handled.wait()

    def is_cancelled(self, call):
        """The last signal ends a call, and all of them come inside of it."""
        self.within, self.depth = [], 0
        self.sender = threading.Thread(target=self.send, daemon=True)
        sys.setprofile(self.profile)
        try:
            with self.assertRaises(KeyboardInterrupt):
                call()
        finally:
            sys.setprofile(None)
        self.assertEqual(self.within, [True] * SIGNALS)

    def test_each_call(self):
        zone, held = covering(ZONE, MOST), []
        for _ in range(3):
            self.is_cancelled(lambda: covering(ZONE, MOST))
            self.is_cancelled(lambda: interior(ZONE, MOST))
            self.is_cancelled(lambda: calls.outline(zone._ids))
            ctypes.CDLL(None).malloc_trim(0)  # pages that were freed in part go back, whatever order they were taken in
            held.append(int(Path("/proc/self/statm").read_text(encoding="ascii").split()[1]))
        self.assertLess(held[-1] - held[0], 500, "pages that six more cancels have left")

    def test_joins(self):
        """A join ends too, a handler can't ask the zones that it interrupts, and afterwards they answer as before."""
        index, places = Index([ZONE] * 100), [15.0] * 200000
        wanted = [zones.tolist() for zones in index.join(places[:9], places[:9])]
        for _ in range(3):
            self.is_cancelled(lambda: index.join(places, places))
        self.asks = lambda: index.join([15], [15])
        self.is_cancelled(lambda: index.join(places, places))
        self.assertEqual(str(self.asked), "a handler of signals asks the zones that it interrupted")
        self.assertEqual([zones.tolist() for zones in index.join(places[:9], places[:9])], wanted)

    def test_other_threads_go_on(self):
        """A cancel in one thread refuses no memory in another."""
        wanted, found = covering(ZONE, 60000), []
        other = threading.Thread(target=lambda: found.extend(covering(ZONE, 60000) for _ in range(3)))
        other.start()
        self.is_cancelled(lambda: covering(ZONE, MOST))
        other.join()
        self.assertEqual(found, [wanted] * 3)
