#!/usr/bin/env python3
"""Tests of what bench/measure.py makes of its runs: rows, tables, sentences and plots.

usage: test_measure.py"""
import os
import tempfile
import unittest
from xml.dom import minidom

import measure
import performance
import plots
import results


def row(family='ring', edges=1_000_000, contender='mincut', job='cactus', workers=1, outcome='done', time=1.0):
    """A row of the results."""
    done = outcome == 'done'
    empty = dict.fromkeys(results.RUN_COLUMNS)
    return dict(empty, family=family, vertices=edges, edges=edges, job=job, contender=contender, workers=workers, outcome=outcome,
                processor_s=time if done else None, clock_s=time if done else None, peak_mb=100.0 if done else None, runs=4, others=0.0, error='')


def peer(edges, time=1.0, outcome='done'):
    return row(edges=edges, contender='igraph', job='value', workers=None, outcome=outcome, time=time)


class Files(unittest.TestCase):
    def filled(self, cells):
        return {name: cell for name, cell in cells.items() if cell not in (None, '')}

    def test_rows_come_back_from_a_file(self):
        rows = [row(), row(outcome='status 5', job='count'), peer(1_000)]
        with tempfile.TemporaryDirectory() as folder:
            results.write(folder, results.RUNS, {'commit': 'abc', 'note': 'one; two'}, rows)
            about, found = results.read(folder, results.RUNS)
        self.assertEqual(about, {'commit': 'abc', 'note': 'one, two'})
        self.assertEqual([self.filled(one) for one in found], [self.filled(one) for one in rows])

    def test_no_file_has_no_rows(self):
        with tempfile.TemporaryDirectory() as folder:
            self.assertEqual(results.read(folder, results.RUNS), ({}, []))


class Peers(unittest.TestCase):
    def is_hopeless(self, *rows):
        return measure.is_hopeless('igraph', measure.Graph('ring', '', 100_000, 100_000, {}), list(rows), 10)

    def test_one_that_was_not_tried_yet_is_tried(self):
        self.assertFalse(self.is_hopeless())

    def test_one_without_an_answer_is_not_tried_again(self):
        self.assertTrue(self.is_hopeless(peer(10_000, outcome='over the limit')))

    def test_growth_is_carried_on(self):
        self.assertTrue(self.is_hopeless(peer(1_000, 0.05), peer(10_000, 5.0)))
        self.assertFalse(self.is_hopeless(peer(1_000, 0.05), peer(10_000, 0.5)))

    def test_short_times_say_nothing(self):
        self.assertFalse(self.is_hopeless(peer(1_000, 0.0001), peer(10_000, 0.01)))


class Parts(unittest.TestCase):
    def test_a_part_is_put_between_its_marks(self):
        text = 'a\n<!-- x: made by bench/measure.py -->\nold\n<!-- end of x -->\nb\n'
        self.assertEqual(performance.with_part(text, 'x', ['new', 'lines']), text.replace('old', 'new\nlines'))

    def test_marks_that_are_not_there_or_twice_are_refused(self):
        text = '<!-- x: made by bench/measure.py -->\n<!-- end of x -->\n'
        self.assertIsNone(performance.with_part(text, 'y', ['new']))
        self.assertIsNone(performance.with_part(text + text, 'x', ['new']))

    def test_kinds_on_which_workers_help_are_named(self):
        words = performance.share_words([(0.5, 'ring'), (0.95, 'grid'), (1.0, 'tree')])
        self.assertEqual(words, '0.50 on rings and 0.95 to 1.00 on the other 2 kinds')
        self.assertEqual(performance.share_words([(1.0, 'tree')]), '1.00 on 1 kind')

    def test_the_largest_graph_counts(self):
        rows = [row(edges=1_000), row(edges=1_000_000, time=2.0), row(edges=1_000_000, workers=4, time=1.0)]
        self.assertEqual(performance.shares(rows, 'cactus'), [(0.5, 'ring')])

    def test_a_run_that_failed_is_named_in_the_table(self):
        rows = [row(job=job) for job in ('value', 'cactus')] + [row(job='count', outcome='status 5'), peer(1_000_000, outcome='not tried')]
        lines = performance.graphs_part({results.RUNS: ({'limit_s': '10'}, rows)})
        self.assertEqual(lines[2], '|ring|1,000,000|1,000,000|1.00|status 5|1.00|100|> 10|')


class Pictures(unittest.TestCase):
    def test_a_picture_is_xml_whatever_was_measured(self):
        several = {'ring': {'mincut': [(1_000, 0.01), (10_000, 20.0)], 'igraph': []}}
        for panels in ({}, {'ring': {}}, {"a 'ring' & more": {'mincut': [(1_000, 0.5)]}}, several):
            minidom.parseString(plots.picture(panels, {}, 'seconds'))


class Runs(unittest.TestCase):
    def test_the_head_of_an_output_has_the_answer(self):
        known = {'value 2\n': {'value': 2}, 'value 2\ncount 3\n': {'value': 2, 'count': 3}, 'cactus 2 4 4 0 1\n1\n': {'value': 2}, '': {}}
        for text, wanted in known.items():
            with tempfile.NamedTemporaryFile('w', suffix='.out') as file:
                file.write(text)
                file.flush()
                self.assertEqual(measure.answer_in(file.name), wanted)

    def test_answers_that_differ_are_told(self):
        graph = measure.Graph('ring', os.devnull, 4, 4, {'value': 2})
        self.assertEqual(measure.differences([dict(row(), value=2)], [], graph), [])
        self.assertEqual(len(measure.differences([dict(row(), value=3), row(outcome='status 5')], [], graph)), 2)


if __name__ == '__main__':
    unittest.main()
