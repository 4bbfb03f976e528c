"""Draws a plan as SVG: a bar is a job's span on the panel, a dashed one how long its server may take to answer.

The left margin is as wide as the longest name asks for, so names stand whole.
"""
from html import escape
from unicodedata import east_asian_width

ACROSS, TOP, ROW, RIGHT = 550, 50, 34, 40
LEAST_MARGIN = 170
PANEL, AWAY = 'fill="#2b6cb0"', 'fill="#bee3f8" stroke="#2b6cb0" stroke-dasharray="4 3"'


def ticks(deadline):
    """Four to nine round numbers up to the deadline."""
    step = 1
    while deadline // step > 9:
        step *= 2 if str(step)[0] in '15' else 2.5
    return range(0, deadline + 1, int(step))


def breadth(text):
    """About how many points a text takes; rather too many, for no font is known."""
    return sum(14 if east_asian_width(c) in 'WF' else 10 if c.isupper() else 7.5 for c in text)


class Picture:
    def __init__(self, title, names, layout):
        self.title, self.layout = title, layout
        self.labels = [f'{stay.id}  {names.get(stay.id, "")}' for stay in layout.stays]
        self.left = max([LEAST_MARGIN] + [20 + round(breadth(label)) for label in self.labels])
        self.base = TOP + ROW * len(self.labels) + 2

    def at(self, time):
        return f'{self.left + ACROSS * time / self.layout.deadline:.1f}'

    def bar(self, start, end, y, look):
        width = ACROSS * (end - start) / self.layout.deadline
        return f'<rect x="{self.at(start)}" y="{y}" width="{width:.1f}" height="18" {look}/>'

    def job(self, stay, label, y):
        yield f'<text x="{self.left - 10}" y="{y + 13}" text-anchor="end">{escape(label)}</text>'
        yield self.bar(stay.start, stay.span_end, y, PANEL)
        if stay.finish > stay.span_end:
            yield self.bar(stay.span_end, stay.finish, y, AWAY)
        yield f'<text x="{float(self.at(stay.finish)) + 6:.1f}" y="{y + 14}" fill="#444">{stay.finish}</text>'

    def axis(self):
        base, right = self.base, self.left + ACROSS
        yield f'<line x1="{self.left}" y1="{base}" x2="{right}" y2="{base}" stroke="#444"/>'
        for t in ticks(self.layout.deadline):
            yield (f'<line x1="{self.at(t)}" y1="{base}" x2="{self.at(t)}" y2="{base + 5}" stroke="#444"/>'
                   f'<text x="{self.at(t)}" y="{base + 20}" text-anchor="middle" fill="#444">{t}</text>')
        yield (f'<line x1="{right}" y1="40" x2="{right}" y2="{base}" stroke="#c53030" stroke-width="2"/>'
               f'<text x="{right - 6}" y="36" text-anchor="end" fill="#c53030">deadline {self.layout.deadline}</text>')

    def legend(self):
        y = self.base + 30
        for x, look, words in ((0, PANEL, 'span on the panel'),
                               (170, AWAY, 'away: the server has up to this long to answer')):
            yield f'<rect x="{self.left + x}" y="{y}" width="14" height="12" {look}/>'
            yield f'<text x="{self.left + x + 20}" y="{y + 11}">{words}</text>'

    def lines(self):
        title = f'{self.title}: the plan, ticks of 1 ms'
        width, height = self.left + max(ACROSS + RIGHT, round(1.2 * breadth(title))), self.base + 52
        yield (f'<svg xmlns="http://www.w3.org/2000/svg" width="{width}" height="{height}" '
               f'viewBox="0 0 {width} {height}" font-family="sans-serif" font-size="13">')
        yield f'<rect width="{width}" height="{height}" fill="white"/>'
        yield f'<text x="{self.left}" y="22" font-size="14" font-weight="bold">{escape(title)}</text>'
        for place, (stay, label) in enumerate(zip(self.layout.stays, self.labels)):
            yield from self.job(stay, label, TOP + ROW * place)
        yield from self.axis()
        yield from self.legend()
        yield '</svg>'
