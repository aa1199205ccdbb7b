"""Logs with cuts for compare.py: pavings that cut, and cuts put into a log where they are right or wrong.

`gpscover` cuts by its own rules. These cuts are drawn at any face and as wide as is shown, with the readings of recheck.py,
so that it has to accept the right ones; whether a cut is right is for both checkers to say.
"""

from collections import deque

from tools.compare.second import recheck


def widest_cut(rows, box, needed, face, tries=46):
    """The bound of a cut at a face whose slab is shown empty, the widest one up to 2^-tries of the side; or None."""
    axis, high_face = divmod(face, 2)
    low, high = box[axis], box[axis + 3]
    good, bad = 0, high - low + 1  # numbers of layers taken off
    for _ in range(tries):
        layers = (good + bad) // 2
        if layers == good:
            break
        bound = high - layers if high_face else low + layers
        slab, _ = recheck.parts_of_cut(box, face, bound)
        if layers <= high - low and recheck.clock_hull(rows, slab, needed) is None:
            good = layers
        else:
            bad = layers
    if not good:
        return None
    return high - good if high_face else low + good


def cut_paving(chance, rows, root, rules):
    """The steps of a paving of a root that cuts each box at drawn faces before it closes or splits it."""
    outliers, budget, width, _ = rules
    needed = len(rows) - outliers
    steps, boxes, next_id, splits = [], deque([(0, root)]), 1, 0
    while boxes:
        box_id, box = boxes.popleft()
        hull = recheck.clock_hull(rows, box, needed)
        for face in chance.sample(range(6), 6) if hull else ():
            bound = widest_cut(rows, box, needed, face, chance.choice((3, 8, 46)))
            if bound is not None:
                steps.append(f"cut {box_id} {face} {bound}")
                _, box = recheck.parts_of_cut(box, face, bound)
        hull = recheck.clock_hull(rows, box, needed)
        axis = max(range(3), key=lambda axis: box[axis + 3] - box[axis])
        if hull is None:
            steps.append(f"out {box_id}")
        elif recheck.shown_inner(rows, box, needed, sum(hull) // 2):
            steps.append(f"in {box_id} {sum(hull) // 2} {hull[0]} {hull[1]}")
        elif box[axis + 3] - box[axis] > width and splits < budget:
            steps.append(f"split {box_id} {axis}")
            boxes += zip((next_id, next_id + 1), recheck.halves(box, axis))
            next_id, splits = next_id + 2, splits + 1
        else:
            steps.append(f"edge {box_id} {hull[0]} {hull[1]}")
    return [step.encode() for step in steps + [f"done {splits}"]]


def log_with_cuts(chance, log):
    """The log with each epoch paved anew by `cut_paving`; and the number of its cuts."""
    texts, made, rows = log.split(b"\n")[:-1], [], []
    rules = recheck.read_log(log)[0][1]
    paved = False  # whether the steps of the log under way are being replaced
    for text in texts:
        word, *fields = text.split(b" ")
        if word in (b"epoch", b"few"):
            rows, paved = [], False
        if not paved:
            made.append(text)
        if word == b"sat":
            rows.append(recheck.log_values(word, fields)[1:])
        if word == b"root":
            made += cut_paving(chance, rows, [int(field) for field in fields], rules)
            paved = True
    return b"".join(text + b"\n" for text in made), sum(text.startswith(b"cut") for text in made)


def cut_texts(chance, walker, box_id):
    """(name, text) of cuts of a live box: proper ones, where there are, and improper ones."""
    box = walker.live[box_id]
    faces = {face: widest_cut(walker.rows, box, walker.needed, face) for face in chance.sample(range(6), 3)}
    face = max(faces, key=lambda face: faces[face] is not None)  # one that can be cut, where one is among them
    axis, high_face = divmod(face, 2)
    inward = -1 if high_face else 1
    low, high = box[axis], box[axis + 3]
    end, other = (high, low) if high_face else (low, high)
    widest = faces[face]
    bounds = [("nothing taken off", end), ("beyond its own end", end - inward), ("one layer", end + inward),
              ("all but a layer", other), ("nothing left", other + inward), ("drawn", chance.randint(low, high)),
              ("in the middle", (low + high) // 2)]
    if widest is not None:
        bounds += [("the widest", widest), ("wider than the widest", widest + inward),
                   ("narrower", (end + widest) // 2)] * 4
    name, bound = chance.choice(bounds)
    texts = [b"cut %d %d %d" % (box_id, face, bound)]
    more = chance.choice(["once"] * 10 + ["twice", "the other face", "a box that isn't live", "face 6", "out of range"])
    if more == "twice":
        texts *= 2
    elif more == "the other face":
        texts.append(b"cut %d %d %d" % (box_id, face ^ 1, chance.randint(low, high)))
    elif more == "a box that isn't live":
        texts = [b"cut %d %d %d" % (chance.choice((walker.next_id, walker.next_id + 1, 400_000)), face, bound)]
    elif more == "face 6":
        texts = [b"cut %d 6 %d" % (box_id, bound)]
    elif more == "out of range":
        texts = [b"cut %d %d %d" % (box_id, face, chance.choice((-1, 1)) * (10**13 + chance.randrange(2)))]
    return f"cut of box {box_id} at face {face}: {name}, {more}", texts


def with_cuts(chance, log, number):
    """(name, changed log): `number` logs in which one or two cuts were put before a drawn step."""
    lines, texts = recheck.read_log(log), log.split(b"\n")[:-1]
    steps = [place for place, (word, _) in enumerate(lines) if word in recheck.STEPS - {b"done"}]
    if not steps:
        return
    chosen = {}
    for place in chance.choices(steps, k=number):
        chosen[place] = chosen.get(place, 0) + 1
    walker = recheck.Judge(lines)
    for place, (word, values) in enumerate(lines):
        walker.number = place + 2
        for _ in range(chosen.get(place, 0)):
            name, cuts = cut_texts(chance, walker, values[0])
            changed = texts[:place + 1] + cuts + texts[place + 1:]
            yield f"before line {place + 2}, {name}", b"".join(text + b"\n" for text in changed)
        getattr(walker, f"{word.decode()}_line")(values)
