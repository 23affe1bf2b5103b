"""The table of what a gate costs, as Markdown."""
import re
import time

from gate_watch import EDITS, PROOF, SEED, SOUND, TESTS

KINDS = (PROOF, TESTS, SEED, EDITS, SOUND)
DEAREST = 12


def crates_in(folder):
    """Returns the crates in the order of crates.txt, with those of the repository that each stands on."""
    with open(f"{folder}/crates.txt", encoding="utf-8") as it:
        rows = [line.partition("#")[0].partition(":") for line in it]
    rows = {row[0].split()[0]: re.split(r"[\s,]+", row[2].strip()) for row in rows if row[0].split()}
    return {name: [it for it in below if it in rows] for name, below in rows.items()}


def longest_chain(rows, gate):
    """Returns the seconds of the longest chain and its links: a crate's proof comes after those below it,
    its edits after its proof and its tests."""
    proved, ends = {}, {}

    def prove(name):
        if name not in proved:
            seconds, links = max((prove(it) for it in rows[name]), default=(0, []))
            tests, own = gate.seconds(name, TESTS), gate.seconds(name, PROOF)
            edits = gate.seconds(name, SEED, EDITS, SOUND)
            proved[name] = (seconds + own, [*links, f"{name} {own:.0f}"])
            last = [f"{name}, its tests {tests:.0f}"] if tests > own else proved[name][1][-1:]
            ends[name] = (seconds + max(own, tests) + edits,
                          [*links, *last, *([f"its edits {edits:.0f}"] if edits else [])])
        return proved[name]

    for name in rows:
        prove(name)
    return max(ends.values(), default=(0, []))


def minutes(seconds):
    return f"{seconds:,.0f} s ({seconds / 60:,.0f} min)"


def table(rows, gate, is_done):
    """Returns the table: a row for each crate, the sums, and the longest chain."""
    cell = lambda name, kind: f"{gate.seconds(name, kind):,.0f}" if gate.has(name, kind) else "–"
    lines = ["| Crate | Proof | Tests | Seed | Edits | Their number | Sound | Sum |",
             "|---|---|---|---|---|---|---|---|"]
    for name in rows:
        if gate.has(name, *KINDS):
            cells = [cell(name, it) for it in KINDS]
            cells[4:4] = [str(len(gate.edits(name)) or "–")]
            lines.append(f"| {' | '.join([name, *cells])} | {gate.seconds(name, *KINDS):,.0f} |")
    sums = {it: sum(gate.seconds(name, it) for name in rows) for it in KINDS}
    cells = [f"{sums[it]:,.0f}" for it in KINDS]
    cells[4:4] = [str(sum(len(gate.edits(name)) for name in rows))]
    lines.append(f"| **all** | {' | '.join(cells)} | **{sum(sums.values()):,.0f}** |")
    seconds, links = longest_chain(rows, gate)
    state = "" if is_done else f" so far, with {len([it for it in gate.live.values() if it.crate])} checks under way"
    lines += [
        "",
        f"Processor seconds{state}, after {minutes(time.time() - gate.began)} by the clock. "
        "A seed is the first check over a crate's kept work: in a kit that",
        "doesn't begin with the crate itself, that of its first edit. Sound: the crate once more over what its edits "
        "kept.",
        "",
        f"- All checks: {minutes(sum(sums.values()))}. "
        f"Besides, rt itself, layouts, links and runs: {minutes(gate.other + gate.own)}.",
        f"- The longest chain: {minutes(seconds)}: {', '.join(links)}.",
    ]
    dear = sorted((it for it in gate.checks if it.edit and it.kind == EDITS), key=lambda it: -it.seconds)[:DEAREST]
    if dear:
        lines.append(f"- The dearest edits: {', '.join(f'{it.crate}/{it.edit} {it.seconds:.0f}' for it in dear)}.")
    if gate.before > 1:
        lines.append(f"- Ended before it was watched, and in none of these: {minutes(gate.before)}.")
    return "\n".join(lines) + "\n"
