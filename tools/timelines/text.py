"""A timeline as text, for a terminal of 160 columns."""

from itertools import zip_longest
from textwrap import wrap

WIDTH = 160
NODES = 64  # so many nodes stand in one line; further ones below it, behind +64, +128, +192
CALL = 34  # columns for a call's words
TIED = "\N{NO-BREAK SPACE}"  # within a pair, so that no line ends there
LEGEND = "each node after the call:  # present   ~ pending   a b .. held by the open range of that letter   * due   . free"


def in_lines(signs):
    return [signs[at : at + NODES] for at in range(0, len(signs), NODES)] or [""]


def print_table(rows, used, most_open):
    """Prints each row: the open ranges, a sign for each node that is ever used, the call and its answer."""
    columns = min(used, NODES)
    ranges = max(4, most_open)
    before = 6 + ranges + 2 + columns + 2

    def put(number, letters, signs, words):
        for line, (left, right) in enumerate(zip_longest(signs, words, fillvalue="")):
            print(f"{number:>4}  {letters:<{ranges}}  {left:<{columns}}  {right}".rstrip())
            number, letters = "", f"+{(line + 1) * NODES}" if line + 1 < len(signs) else ""

    print(LEGEND)
    print()
    width = len(str(max(min(used, NODES) - 1, 0)))
    for digit in range(width):
        last = digit == width - 1
        signs = "".join(str(node).zfill(width)[digit] for node in range(min(used, NODES)))
        put("no." if last else "", "open" if last else "", [signs], [f"{'call':<{CALL}}  answer" if last else ""])
    for row in rows:
        signs = "".join(place.sign for place in row.places).ljust(used, ".")
        answer = [line.replace(TIED, " ") for line in wrap(row.answer.replace(" -> ", f"{TIED}->{TIED}"), WIDTH - before - CALL - 2)]
        words = [f"{row.call:<{CALL}}  {answer[0]}"] if len(row.call) <= CALL else [row.call, " " * CALL + "  " + answer[0]]
        put(row.number, row.letters, in_lines(signs), words + [" " * CALL + "  " + line for line in answer[1:]])
