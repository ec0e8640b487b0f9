#!/usr/bin/env python3
"""Tests of the time that is left, as it is told while crates are proved.

usage: test_proving_time.py"""
import unittest
from unittest import mock

from proving_time import Costs, Watch


class TimeLeft(unittest.TestCase):
    """Twelve crates in a chain, each of which cost 100 s where it was measured, on a machine with the same loop."""

    def setUp(self):
        names = [f'crate{number}' for number in range(12)]
        with mock.patch('proving_time.loop_seconds', lambda: 1.0):
            self.watch = Watch(names, {name: names[at - 1:at] for at, name in enumerate(names)}, Costs(1.0, dict.fromkeys(names, 100.0)))

    def end(self, number, seconds):
        """That crate has ended, and took so much processor time."""
        self.watch.times[f'crate{number}'] = {('a process', 'its start'): seconds}
        self.watch.end(f'crate{number}')

    def get(self, seconds, of):
        """In the last minutes the crates got so many seconds of those that they could have had."""
        clock, could, had = self.watch.looks[-1]
        self.watch.looks.append((clock + of, could + of, had + seconds))

    def test_before_any_has_ended_it_goes_by_the_speed_of_the_machine(self):
        self.watch.first_ratio = 2.0
        self.assertAlmostEqual(self.watch.seconds_left(), 2400)

    def test_the_last_crates_count_and_not_all(self):
        for number in range(4):
            self.end(number, 100)
        for number in range(4, 8):
            self.end(number, 300)
        self.assertAlmostEqual(self.watch.ratio(), 3)
        self.assertAlmostEqual(self.watch.seconds_left(), 4 * 300)

    def test_crates_that_were_kept_do_not_count(self):
        for number in range(8):
            self.watch.keep(f'crate{number}')
        self.end(8, 200)
        self.assertAlmostEqual(self.watch.seconds_left(), 3 * 200)

    def test_a_late_crate_slows_the_rest(self):
        for number in range(10):
            self.end(number, 100)
        self.watch.running = ['crate10']
        self.watch.times['crate10'] = {('a process', 'its start'): 400}
        self.assertGreater(self.watch.seconds_left(), 40 + 100)

    def test_other_work_on_the_machine_counts(self):
        self.get(100, 230)
        self.assertAlmostEqual(self.watch.seconds_left(), 1200 * 2)


if __name__ == '__main__':
    unittest.main()
