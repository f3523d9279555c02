"""Bars of counts as a picture in SVG."""
from html import escape

COLOURS = ('#2b6cb0', '#dd8452')
BAR, GAP, LEFT, RIGHT, TOP, HIGH, LOW = 46, 14, 58, 20, 64, 240, 62
# White around the letters, where they stand on a line.
HALO = ' stroke="#fff" stroke-width="3" paint-order="stroke"'


def step_of(most):
    """The step between the lines of a scale up to a count, so that there are seven at most: 1, 2 or 5 and zeros."""
    step, factors = 1, (2, 2.5, 2)
    while most > 6 * step:
        step, factors = int(step * factors[0]), factors[1:] + factors[:1]
    return step


def text(x, y, content, size=12, anchor='middle', more=''):
    """A text of the picture."""
    return f'<text x="{x:g}" y="{y:g}" font-size="{size}" text-anchor="{anchor}"{more}>{escape(content)}</text>'


def box(x, y, width, height, fill):
    """A rectangle of the picture."""
    return f'<rect x="{x:g}" y="{y:g}" width="{width:g}" height="{height:g}" fill="{fill}"/>'


def line(y, right, stroke):
    """A line across the picture."""
    return f'<line x1="{LEFT}" y1="{y:g}" x2="{right}" y2="{y:g}" stroke="{stroke}"/>'


def scale(most, right):
    """The count at the top, and the lines with their numbers."""
    step = step_of(most)
    top = max(step, -(-most // step) * step)
    lines = []
    for count in range(0, top + 1, step):
        y = TOP + HIGH - HIGH * count / top
        lines += [line(y, right, '#ddd'), text(LEFT - 8, y + 4, f'{count}', 11, 'end')]
    return top, lines


def bar(x, count, top, colour, shown):
    """A bar, with the count and its share above it."""
    high = HIGH * count / top
    y = TOP + HIGH - high
    return [box(x + 3, y, BAR - 6, high, colour), text(x + BAR / 2, y - 16, f'{count}', 11, more=HALO),
            text(x + BAR / 2, y - 4, f'{shown} %', 9, more=HALO)]


def picture(title, axis, labels, groups, share):
    """The picture: for each label a bar of each group, which has a name and as many counts; `share` writes a count's share of a
    total. The axis has a name, and there may be a title.
    """
    wide = BAR * len(groups) + GAP
    width, height = LEFT + wide * len(labels) + RIGHT, TOP + HIGH + LOW
    top, lines = scale(max(max(counts, default=0) for _, counts in groups), width - RIGHT)
    heads = [text(LEFT, 24, title, 15, 'start', ' font-weight="bold"')] if title else []
    for number, (name, _) in enumerate(groups if len(groups) > 1 else ()):
        x = LEFT + 150 * number
        heads += [box(x, 34, 12, 12, COLOURS[number]), text(x + 18, 44, name, 12, 'start')]
    for place, label in enumerate(labels):
        left = LEFT + wide * place + GAP / 2
        for number, (_, counts) in enumerate(groups):
            lines += bar(left + BAR * number, counts[place], top, COLOURS[number], share(counts[place], sum(counts)))
        small = len(label) >= 8 * len(groups)
        lines.append(text(left + BAR * len(groups) / 2, TOP + HIGH + 18, label, 9 if small else 12))
    front = [f'<svg xmlns="http://www.w3.org/2000/svg" width="{width}" height="{height}" viewBox="0 0 {width} {height}" role="img" '
             'font-family="sans-serif" fill="#222">', f'<title>{escape(title or axis)}</title>', box(0, 0, width, height, '#fff')]
    end = [line(TOP + HIGH, width - RIGHT, '#222'), text(LEFT + wide * len(labels) / 2, TOP + HIGH + 44, axis), '</svg>', '']
    return '\n'.join(front + heads + lines + end)
