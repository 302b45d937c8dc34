"""Plots of bars, as parts of a page for a browser."""

from __future__ import annotations

import io
import re
from typing import Any, Dict

import matplotlib
from markupsafe import Markup, escape
from matplotlib.figure import Figure
from matplotlib.ticker import FuncFormatter, MaxNLocator

from .texts import size_of

MOST_BARS = 60  # of a plot of years: if there are more, a bar is a decade or a century
_BAR, _LINE = "#010203", "#040506"  # placeholders for the colours of the page
_COLOURS = {_BAR: "var(--bar)", _LINE: "var(--line)", "#000000": "currentColor"}
_SETTINGS: Dict[str, Any] = {"svg.fonttype": "none", "font.size": 11}
_NO_METADATA = dict.fromkeys(("Creator", "Date", "Format", "Type"))


def _in_the_page(drawn: str, name: str, about: str) -> Markup:
    """Returns a drawing as a part of the page: as wide as there is room, in the colours and the type of the page, and with a text."""
    drawn = re.sub(r"(?s)<defs>\s*<style.*?</defs>", "", drawn[drawn.index("<svg") :])
    drawn = re.sub(r"font: (\S+) [^;\"]*", r"font-size: \1", drawn)
    drawn = re.sub(r'\bid="|(?<=xlink:href="#)|(?<=url\(#)', lambda found: f"{found[0]}{name}-", drawn)
    for drawn_in, shown_in in _COLOURS.items():
        drawn = drawn.replace(drawn_in, shown_in)
    view = re.search(r'viewBox="[^"]*"', drawn)
    assert view is not None  # Matplotlib writes one
    return Markup(f'<svg {view[0]} role="img" aria-label="{escape(about)}">{drawn[drawn.index(">") + 1 :].strip()}')


def _plot(bars: Dict[int, int], ticks: Dict[float, str], name: str, about: str) -> Markup:
    """Returns a plot of bars at numbers, with names below some numbers."""
    with matplotlib.rc_context({**_SETTINGS, "svg.hashsalt": name}):
        figure = Figure(figsize=(5.1, 2.7), layout="constrained")
        axes = figure.add_subplot()
        axes.bar(list(bars), list(bars.values()), width=0.86, color=_BAR, zorder=2)
        aside = max(1, (7 - len(range(min(bars), max(bars) + 1))) / 2)  # so that few bars are not wide
        axes.set_xlim(min(bars) - aside, max(bars) + aside)
        axes.set_xticks(list(ticks), list(ticks.values()))
        axes.yaxis.set_major_locator(MaxNLocator(nbins=4, integer=True, min_n_ticks=1))
        axes.yaxis.set_major_formatter(FuncFormatter(lambda it, _: f"{it:,.0f}"))
        axes.set_ylim(0, max(bars.values()) * 1.08)
        axes.grid(axis="y", color=_LINE, linewidth=1)
        axes.tick_params(bottom=False, left=False)
        axes.spines[["left", "top", "right"]].set_visible(False)
        figure.patch.set_visible(False)
        axes.patch.set_visible(False)
        drawn = io.StringIO()
        figure.savefig(drawn, format="svg", metadata=_NO_METADATA)
    return _in_the_page(drawn.getvalue(), name, about)


def _some(numbers: range) -> range:
    """Returns at most seven numbers of a range, evenly apart."""
    return numbers[:: -(-len(numbers) // 7)]


def _files(number: int) -> str:
    return f"{number:,} file{'' if number == 1 else 's'}"


def plot_of_years(years: Dict[int, int], name: str = "years", of: str = "time-stamp tokens", one: str = "token", more: str = "tokens") -> Markup:
    """Returns a plot by year, or by decade or century if the years are far apart. `of` says of what, and `one` and `more` are what is counted."""
    span = max(years) - min(years) + 1
    step, unit = (1, "year") if span <= MOST_BARS else (10, "decade") if span <= 10 * MOST_BARS else (100, "century")
    bars: Dict[int, int] = {}
    for year, files in years.items():
        bars[year // step] = bars.get(year // step, 0) + files
    names = {it: f"{it * step}{'' if step == 1 else 's'}" for it in range(min(bars), max(bars) + 1)}
    most = max(bars, key=bars.__getitem__)
    about = (
        f"Bar chart of the {of} by {unit}, from {min(years)} to {max(years)}. "
        f"The {unit} with the most is {names[most]}: {bars[most]:,} {one if bars[most] == 1 else more}. The table below has all numbers."
    )
    return _plot(bars, {it: names[it] for it in _some(range(min(bars), max(bars) + 1))}, name, about)


def plot_of_sizes(powers: Dict[int, int]) -> Markup:
    """Returns a plot of the messages by their sizes."""
    most = max(powers, key=powers.__getitem__)
    edges = _some(range(min(powers), max(powers) + 2))
    about = (
        f"Bar chart of the messages by size, from {size_of(1 << min(powers))} to {size_of(2 << max(powers))}. "
        f"Most have {size_of(1 << most)} to {size_of(2 << most)}: {_files(powers[most])}. The table below has all numbers."
    )
    ticks = {it - 0.5: size_of(1 << it) if it >= 10 else str(1 << it) for it in edges}
    return _plot(powers, ticks, "sizes", about)
