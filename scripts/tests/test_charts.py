#!/usr/bin/env python3
"""Tests of the charts of the documents: which are drawn of which figures, and that another figure is found in one."""

import re
import unittest
from unittest import mock

import support  # first, since it finds the others

import charts

MEASURED = {(image, chain): ["0.1", "0.2"] for _, image, chain in charts.BESIDE}
SECONDS = ["1", "2", "3", "4"]
OF_WIDTHS = {(charts.columns(it, form), charts.TOOL): SECONDS for it in charts.WIDTHS for form in ("raw", "plain")}
OF_TOOLS = {("sheet", " | ".join([charts.TOOL] * it)): SECONDS for it in charts.NUMBERS}


def drawn(figures):
    with mock.patch("charts.figures", lambda: figures):
        return charts.drawn()


@unittest.skipUnless(charts.can_draw(), "gnuplot isn't installed")
class Charts(unittest.TestCase):
    def test_what_is_drawn(self):
        """A chart is drawn if all of its figures are there, and those of the processors if it shows these."""
        self.assertEqual(list(drawn(MEASURED)), ["beside-netpbm"])
        self.assertEqual(list(drawn({**OF_WIDTHS, **OF_TOOLS})), ["by-width", "by-tools"])
        self.assertEqual(list(drawn({**OF_TOOLS, ("sheet", charts.TOOL): ["1", "2"]})), [])

    def test_what_is_shown(self):
        texts = charts.told_in(drawn(MEASURED)["beside-netpbm"])[1]
        self.assertEqual(texts.count("0.100 s (Netpbm 0.200 s)"), len(charts.BESIDE))
        self.assertIn("color: pamdepth 100", texts)
        texts = charts.told_in(drawn(OF_WIDTHS)["by-width"])[1]
        self.assertLess({"Columns of a row", "1", "20,000", "pnmpipe, raw", "Netpbm, plain"}, set(texts))

    def test_another_figure(self):
        chart = drawn(MEASURED)["beside-netpbm"]
        other = drawn({**MEASURED, ("page", "pnminvert"): ["0.1", "0.3"]})["beside-netpbm"]
        self.assertTrue(charts.are_the_same(chart, chart))
        self.assertFalse(charts.are_the_same(chart, other))
        self.assertFalse(charts.are_the_same(chart, chart.replace('fill="#ffffff"', 'fill="#eeeeee"')))
        # of another version of gnuplot, whose lines may lie elsewhere
        older = re.sub("GNUPLOT [^<]*", "GNUPLOT 4", chart).replace("800", "801")
        self.assertTrue(charts.are_the_same(chart, older))
        self.assertFalse(charts.are_the_same(other, older))


if __name__ == "__main__":
    unittest.main()
