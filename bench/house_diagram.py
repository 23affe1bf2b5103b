"""The diagram of the crates: floors as docs/ARCHITECTURE.md tells them, lines as crates.txt has them."""
import re

WIDTH, MIDDLE, MARGIN = 1240, 500, 24
BOX, ROW, GAP, TITLE = 22, 46, 14, 20
SIDES = {"meaning": (MARGIN, MIDDLE - 10), "files": (MIDDLE + 10, WIDTH - MARGIN), "": (MARGIN, WIDTH - MARGIN)}
# what times or tests the others stands on many of them: its lines would hide all else
UNLINED = ("tests", "timing")


def crates_of(text):
    """The crates of crates.txt, each with what it stands on, the kit's libraries left out."""
    crates = {}
    for line in text.splitlines():
        name, colon, below = line.partition("#")[0].partition(":")
        if colon and name.strip():
            crates[name.split()[0]] = below.split()
    return {name: [b for b in below if b in crates] for name, below in crates.items()}


def floors_of(text):
    """The floors of the table in docs/ARCHITECTURE.md, the highest first: name, side and crates."""
    floors = []
    for line in text.splitlines():
        cells = [cell.strip() for cell in line.strip("|").split("|")]
        if line.startswith("|") and len(cells) >= 4 and cells[1] in ("both", "meaning", "files"):
            floors.append((cells[0], cells[1].replace("both", ""), cells[2].split()))
    return floors


def faults_of(crates, floors):
    """Where the floors are none: a crate on no floor or on two, or one that stands on a higher one."""
    height, faults = {}, []
    for at, (name, _, there) in enumerate(floors):
        for crate in there:
            if crate in height:
                faults.append("%s stands on two floors" % crate)
            if crate not in crates:
                faults.append("%s, of the floor %s, is no crate" % (crate, name))
            height[crate] = at
    for crate, below in crates.items():
        if crate not in height:
            faults.append("%s stands on no floor" % crate)
        for other in below:
            if height.get(other, 0) < height.get(crate, 0):
                faults.append("%s stands on %s, whose floor is higher" % (crate, other))
    return faults


def reduced(crates):
    """The lines to draw: from a crate to those that no other crate below it stands on."""
    reach = {}

    def below(name):
        if name not in reach:
            reach[name] = set()
            for other in crates[name]:
                reach[name] |= {other} | below(other)
        return reach[name]

    for name in crates:
        below(name)
    return {n: [b for b in bs if not any(b in reach[o] for o in bs if o != b)] for n, bs in crates.items()}


def rows_of(crates, there):
    """The crates of a floor in rows, each above those of the floor that it stands on; the highest row first."""
    depth = {}

    def depth_of(name):
        if name not in depth:
            depth[name] = 1 + max([depth_of(b) for b in crates[name] if b in there], default=-1)
        return depth[name]

    top = max(depth_of(name) for name in there)
    return [[n for n in there if depth[n] == d] for d in range(top, -1, -1)]


class Drawing:
    """Places for the boxes of crates, and the picture."""

    def __init__(self, crates, floors):
        self.crates, self.lines = crates, reduced(crates)
        self.rows, self.bands, self.x, self.y = [], [], {}, {}
        self.height = self._stack(floors)
        for name, side, there in floors:
            if name in UNLINED:
                for crate in there:
                    self.lines[crate] = []
        self._order()

    def _stack(self, floors):
        """Puts the floors one below the other, those of the two sides beside each other; the height of all."""
        at = {"meaning": TITLE, "files": TITLE}
        pairs = self._levels(floors)
        for level in pairs:
            top = max(at.values())
            tall = max(len(rows_of(self.crates, there)) for _, _, there in level)
            for name, side, there in level:
                rows = rows_of(self.crates, there)
                self.bands.append((name, side, top, TITLE + tall * ROW))
                for i, row in enumerate(rows):
                    self.rows.append((side, row))
                    for crate in row:
                        self.y[crate] = top + TITLE + i * ROW + (tall - len(rows)) * ROW // 2
            at = {key: top + TITLE + tall * ROW + GAP for key in at}
        return max(at.values())

    @staticmethod
    def _levels(floors):
        """Floors of both sides stand alone; of the others the n-th of each side stand beside each other."""
        meaning = [f for f in floors if f[1] == "meaning"]
        files = [f for f in floors if f[1] == "files"]
        levels, sides = [], [[f for f in pair if f] for pair in zip_longest(meaning, files)]
        for floor in floors:
            if floor[1] == "":
                levels.append([floor])
            elif sides:
                levels += sides
                sides = []
        return levels

    def _order(self):
        """Orders each row by the middle of what its crates stand on and bear, a few times over."""
        ups = {n: [u for u in self.crates if n in self.lines[u]] for n in self.crates}
        for side, row in self.rows:
            self._spread(side, row)
        for turn in range(24):
            rows = self.rows if turn % 2 else reversed(self.rows)
            for side, row in rows:
                near = {n: [self.x[m] for m in self.lines[n] + ups[n]] for n in row}
                row.sort(key=lambda n: (sum(near[n]) / len(near[n]) if near[n] else self.x[n], n))
                self._spread(side, row)

    def _spread(self, side, row):
        left, right = SIDES[side]
        widths = [width_of(name) for name in row]
        space = (right - left - sum(widths)) / (len(row) + 1)
        for name, width in zip(row, widths):
            left += space
            self.x[name] = left + width / 2
            left += width

    def svg(self):
        out = ['<svg xmlns="http://www.w3.org/2000/svg" viewBox="0 0 %d %d" font-family="monospace" font-size="12">'
               % (WIDTH, self.height), '<rect width="100%" height="100%" fill="white"/>']
        for name, side, top, tall in self.bands:
            left, right = SIDES[side]
            out.append('<rect x="%d" y="%d" width="%d" height="%d" rx="6" fill="%s"/>'
                       % (left - 10, top, right - left + 20, tall, FILLS[side]))
            out.append('<text x="%d" y="%d" fill="#555" font-style="italic">%s</text>' % (left - 2, top + 14, name))
        for name in self.crates:
            out += [self._line(name, other) for other in self.lines[name]]
        for name in self.crates:
            wide = width_of(name)
            out.append('<rect x="%.1f" y="%d" width="%d" height="%d" rx="4" fill="white" stroke="#333"/>'
                       % (self.x[name] - wide / 2, self.y[name], wide, BOX))
            out.append('<text x="%.1f" y="%d" text-anchor="middle">%s</text>' % (self.x[name], self.y[name] + 15, name))
        return "\n".join(out + ["</svg>", ""])

    def _line(self, name, other):
        x, y, u, v = self.x[name], self.y[name] + BOX, self.x[other], self.y[other]
        bend = max(18, (v - y) * 0.4)
        return ('<path d="M%.1f %d C%.1f %.1f %.1f %.1f %.1f %d" fill="none" stroke="%s" stroke-opacity="0.55"/>'
                % (x, y, x, y + bend, u, v - bend, u, v, INKS[sum(map(ord, name)) % len(INKS)]))


FILLS = {"": "#f2f2f2", "meaning": "#eaf3ea", "files": "#e9eff7"}
INKS = ["#1b4f72", "#7d3c98", "#b9770e", "#1e8449", "#943126", "#0e6655", "#5d6d7e"]


def width_of(name):
    return 8 * len(name) + 14


def zip_longest(first, second):
    from itertools import zip_longest as zipped
    return zipped(first, second)


def draw(crates_text, architecture_text):
    """The picture, as SVG."""
    return Drawing(crates_of(crates_text), floors_of(architecture_text)).svg()
