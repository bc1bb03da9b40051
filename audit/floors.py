"""Where the crates of a picture stand: floors from the ground up, an order in each floor with few crossings, and a place for each.

An arrow goes from a crate to one that it uses. One that goes past floors in between does so in a lane: all users of a crate above its next floor share its lane.
So a node is a crate's name or, in a lane, a pair of the used crate and a floor.
"""
SWEEPS = 40


def reduced(stands_on):
    """What each crate uses directly and not already through another crate; libraries of the kit are left out."""
    uses = {name: [below for below in named if below in stands_on] for name, named in stands_on.items()}
    through = {}

    def reached(name):
        if name not in through:
            through[name] = set(uses[name]).union(*map(reached, uses[name]))
        return through[name]
    return {name: [below for below in named if not any(below in reached(other) for other in named)] for name, named in uses.items()}


def floor_of(uses):
    """One above the highest that a crate stands on."""
    floors = {}

    def floor(name):
        if name not in floors:
            floors[name] = max((floor(below) + 1 for below in uses[name]), default=0)
        return floors[name]
    return {name: floor(name) for name in uses}


def links(uses, floors):
    """Pairs of a node and the node on the next floor below that it is drawn to."""
    found = []
    for name, named in uses.items():
        for below in named:
            found.append((name, below if floors[below] == floors[name] - 1 else (below, floors[name] - 1)))
    for below in uses:
        top = max((floors[name] for name in uses if below in uses[name]), default=0)
        for floor in range(floors[below] + 1, top):
            found.append(((below, floor), below if floor == floors[below] + 1 else (below, floor - 1)))
    return found


def layers(uses, floors, pairs):
    """The nodes of each floor, those of one channel side by side to begin with."""
    rows = [[] for floor in range(max(floors.values()) + 1)]
    for name in sorted(uses, key=lambda name: (channel(name), name)):
        rows[floors[name]].append(name)
    for lane in dict.fromkeys(upper for upper, lower in pairs if isinstance(upper, tuple)):
        rows[lane[1]].append(lane)
    return rows


def channel(name):
    """The crates NAME, NAME_map, NAME_read and slt_NAME are one channel."""
    return name.removeprefix("slt_").split("_")[0]


def neighbours(pairs):
    up, down = {}, {}
    for upper, lower in pairs:
        down.setdefault(upper, []).append(lower)
        up.setdefault(lower, []).append(upper)
    return up, down


def crossings(rows, down):
    """How many pairs of links cross."""
    total = 0
    for above, below in zip(rows[1:], rows):
        place = {node: at for at, node in enumerate(below)}
        ends = [place[lower] for upper in above for lower in sorted(down.get(upper, ()), key=place.get)]
        total += sum(first > second for at, first in enumerate(ends) for second in ends[at + 1:])
    return total


def ordered(rows, pairs):
    """Each floor sorted by the middle of its neighbours' places, up and down the house; the best order seen is kept."""
    up, down = neighbours(pairs)
    best, least = [list(row) for row in rows], crossings(rows, down)
    for sweep in range(SWEEPS):
        near, floors = (down, range(1, len(rows))) if sweep % 2 == 0 else (up, range(len(rows) - 2, -1, -1))
        for floor in floors:
            other = rows[floor - 1 if near is down else floor + 1]
            place = {node: (at + 0.5) / len(other) for at, node in enumerate(other)}
            own = {node: (at + 0.5) / len(rows[floor]) for at, node in enumerate(rows[floor])}
            middle = {node: mean([place[n] for n in near[node]]) if node in near else own[node] for node in rows[floor]}
            rows[floor].sort(key=middle.get)
        count = crossings(rows, down)
        if count < least:
            best, least = [list(row) for row in rows], count
    return best


def mean(numbers):
    return sum(numbers) / len(numbers)


def apart(wanted, widths, gap):
    """The places nearest to the wanted ones at which nodes of these widths, in this order, do not touch."""
    offset, offsets = 0, []
    for width, after in zip(widths, [*widths[1:], 0]):
        offsets.append(offset)
        offset += (width + after) / 2 + gap
    blocks = []
    for want, shift in zip(wanted, offsets):
        blocks.append([want - shift, 1])
        while len(blocks) > 1 and blocks[-2][0] > blocks[-1][0]:
            last, before = blocks.pop(), blocks.pop()
            count = last[1] + before[1]
            blocks.append([(last[0] * last[1] + before[0] * before[1]) / count, count])
    starts = [place for place, count in blocks for _ in range(count)]
    return [start + shift for start, shift in zip(starts, offsets)]


def placed(rows, pairs, width, gap):
    """The middle of each node from left to right: near its neighbours, clear of the others of its floor."""
    up, down = neighbours(pairs)
    middle = {node: place for row in rows for node, place in zip(row, apart([0] * len(row), [width(node) for node in row], gap))}
    for sweep in range(SWEEPS):
        for row in rows if sweep % 2 else rows[::-1]:
            near = [[*up.get(node, ()), *down.get(node, ())] for node in row]
            wanted = [mean([middle[other] for other in others]) if others else middle[node] for node, others in zip(row, near)]
            middle.update(zip(row, apart(wanted, [width(node) for node in row], gap)))
    left = min(middle[node] - width(node) / 2 for node in middle)
    return {node: place - left for node, place in middle.items()}
