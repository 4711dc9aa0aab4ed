"""A table of what steps take in large heaps, of the C library and of others."""
import collections

# Seconds of all, those of a part, what a part is, and the bytes that are resident then.
Row = collections.namedtuple("Row", "seconds each part resident")


def best_of(runs):
    """Of each row the best of some runs: the one that took least time, and the least memory."""
    best = {}
    for rows in runs:
        for name, row in rows.items():
            kept = best.get(name, row)
            best[name] = min(kept, row)._replace(resident=min(kept.resident, row.resident))
    return best


def span(seconds):
    """A time in words: three figures or more."""
    for unit, scale in (("s", 1), ("ms", 1e-3), ("us", 1e-6)):
        if seconds >= scale or unit == "us":
            return f"{seconds / scale:.{1 if seconds >= 10 * scale else 2}f} {unit}"
    return ""


def cell(row):
    if row is None:
        return "-"
    each = [f"{row.each * 1e9:.1f} ns/{row.part}"] if row.part not in ("heap", "step") else []
    return ", ".join([span(row.seconds), *each, f"{row.resident / 1e6:.1f} MB"])


def times(one, other):
    """One figure to another, with a digit where it is small."""
    return f"{one / other:.2f}" if one >= other / 10 else f"{one / other:.1g}"


def show(title, columns, apart=()):
    """Prints the rows of columns side by side, and after each but the first what the first one takes to it; not in rows that are apart."""
    (first, ours), *others = columns.items()
    head = [first] + [word for name, _ in others for word in (name, f"to {name}: time; memory")]
    print(f"| {title} | " + " | ".join(head) + " |\n|---|" + "---|" * len(head))
    for name in dict.fromkeys(name for rows in columns.values() for name in rows):
        one, cells = ours.get(name), [cell(ours.get(name))]
        for column, rows in others:
            other = rows.get(name)
            is_compared = one and other and (column, name) not in apart
            cells += [cell(other), f"{times(one.seconds, other.seconds)}; {times(one.resident, other.resident)}" if is_compared else "-"]
        print(f"| {name} | " + " | ".join(cells) + " |", flush=True)
