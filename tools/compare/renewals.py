"""Logs with renewals for compare.py: renewals put into a log where they are right or wrong.

`gpscover` renews rows by its own rule, behind some splits. These renewals stand before drawn steps, over drawn boxes and with
rows of recheck.py, so that it has to accept the right ones; whether a renewal is right is for both checkers to say.
"""

from tools.compare.second import recheck


def grown_row(files, epoch, satellite, used, box):
    """The numbers of a `sat` line for a satellite over a box: its own row, wider by W at both ends, and its bounds by G."""
    spans = [(low - room, high + room)
             for (low, high), room in zip(files.row(epoch, satellite, used, box), files.rooms(box))]
    numbers = [end for span in spans[:4] for end in span]
    if not files.settings.delays:
        return numbers + 2 * files.settings.bounds_of(satellite)
    (least, sure_low), (sure_high, most) = spans[4:]
    return numbers + [least, most, sure_low, sure_high]


def row_text(satellite, row):
    """A `sat` line."""
    sure = row[10:] if row[10:] != row[8:10] else []
    return b" ".join([b"sat", satellite, *(b"%d" % number for number in row[:10] + sure)])


def drawn_box(chance, walker):
    """(name, box) of a renewal: mostly one that holds each live box and lies in the root."""
    root, live = walker.root, list(walker.live.values())
    hull = recheck.hull(live or [root])
    side, inward = chance.randrange(6), chance.choice((1, -1))
    wider = [chance.randint(*sorted(ends)) for ends in zip(hull, root)]
    moved, beyond = list(hull), list(root)
    moved[side] += inward
    beyond[side] += -1 if side < 3 else 1
    boxes = [("the hull", hull)] * 5 + [("the root", root), ("wider than the hull", wider), ("wider than the hull", wider),
                                        ("the hull with an end moved", moved), ("beyond the root", beyond),
                                        ("a live box", chance.choice(live or [root]))]
    return chance.choice(boxes)


def drawn_rows(chance, walker, own):
    """(name, texts) of the rows of a renewal, mostly of those that are its own."""
    names = list(walker.used)
    texts = [row_text(name, own(name)) for name in names]
    how = chance.choice(["own rows"] * 10 + ["the rows in use", "a number changed", "two swapped", "one less", "one more",
                                             "a skip"])
    at = chance.randrange(len(names))
    if how == "the rows in use":
        texts = [row_text(name, row) for name, row in zip(names, walker.rows)]
    elif how == "a number changed":
        row = own(names[at])
        row[chance.randrange(len(row))] += chance.choice((1, -1, 1000, -1000, 10**6, -10**6))
        texts[at] = row_text(names[at], row)
    elif how == "two swapped":
        texts[at], texts[at - 1] = texts[at - 1], texts[at]
    elif how == "one less":
        del texts[at]
    elif how == "one more":
        texts.insert(at, texts[at])
    elif how == "a skip":
        texts[at] = b"skip %s 1" % names[at]
    return how, texts


def with_renewals(chance, log, number, files):
    """(name, changed log): `number` logs in which a renewal was put before a drawn step."""
    lines, texts = recheck.read_log(log), log.split(b"\n")[:-1]
    epochs = {epoch.index: epoch for epoch in files.epochs}
    chosen = {}
    for place in chance.choices([place for place, (word, _) in enumerate(lines) if word in recheck.STEPS], k=number):
        chosen[place] = chosen.get(place, 0) + 1
    walker = recheck.Judge(lines)
    for place, (word, values) in enumerate(lines):
        walker.number = place + 2
        for _ in range(chosen.get(place, 0)):
            epoch = epochs[walker.index]
            used = dict(files.satellites(epoch))
            where, box = drawn_box(chance, walker)
            what, rows = drawn_rows(chance, walker, lambda name: grown_row(files, epoch, name, used[name], box))
            heads = texts[:1] if chance.random() < 0.1 or texts[0] != recheck.PLAIN else [b"gpscover 2"]
            changed = heads + texts[1:place + 1] + [b"renew %d %d %d %d %d %d" % tuple(box), *rows] + texts[place + 1:]
            yield f"before line {place + 2}, {where}, {what}", b"".join(text + b"\n" for text in changed)
        getattr(walker, f"{word.decode()}_line")(values)
