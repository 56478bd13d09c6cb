"""Tells the answers in sentences."""
from .text import Loop

ORDER = ("found", "unknown", "safe", "never")
FOUND, OPEN = 1, 2


def told(job):
    """The lines of the answers, and the status."""
    groups = grouped(job)
    lines = [line for spot, questions in groups for line in operation_told(job, spot, questions)]
    lines += [line for it in job.study.wishes for line in wish_told(job, it)]
    lines += [f"note: {it}" for it in dict.fromkeys(job.study.notes)]
    answers = [worst(questions).answer for _, questions in groups]
    lines.append(counted(answers))
    if job.words.bound:
        lines += bound_told(job)
    answers += [it.answer for it in job.study.wishes]
    return lines, FOUND if "found" in answers else OPEN if set(answers) - {"never"} else 0


def grouped(job):
    """The operations by their places in the source, in its order."""
    found = {}
    for it in job.study.traps:
        spot = job.places.spot(it.operation)
        found.setdefault(spot.spans or (spot.text,), (spot, []))[1].append(it)
    return [found[it] for it in sorted(found, key=lambda key: (isinstance(key[0], str), key))]


def worst(questions):
    """The question that decides about an operation that stands several times in the text."""
    return min(questions, key=lambda it: (ORDER.index(it.answer), len(it.rows or ()), it.safe))


def many(count, one, more=None):
    return f"{count} {one if count == 1 else more or one + 's'}"


def by_whom(job, question):
    """On what an answer rests."""
    if question.by_ranges or not job.solver:
        return "by ranges alone"
    confirmed = f"invariants confirmed by {job.solver.kind}" if job.study.confirmed else "without invariants"
    steps = "one step" if question.steps < 2 else "two steps"
    return f"proved by {job.solver.kind}, {steps}; {confirmed}"


def operation_told(job, spot, questions):
    """What is known of an operation."""
    it, spot = worst(questions), str(spot)
    if isinstance(it.operation, Loop):
        spot = f"turns of {spot}"
    if it.answer == "never":
        evidence = next((one for one in questions if one.by_ranges), it)
        return [f"never traps: {spot} ({by_whom(job, evidence)})"]
    if it.answer == "found":
        return rows_told(job, it, f"can trap: {spot}, in tick {len(it.rows)}")
    if it.answer == "safe":
        return [f"safe in the first {many(it.safe, 'tick')}: {spot}{reason(it)} ({safe_by(job, it)})"]
    return [f"may trap: {spot} (unknown{searched(job, it)})"]


def safe_by(job, it):
    return "by ranges alone" if it.by_ranges else f"proved by {job.solver.kind}"


def reason(it):
    """Why an operation is safe for a while."""
    cells = {path.rsplit(".", 1)[-1].split("_", 1)[-1]: by for path, by in it.why.items()}
    told_cells = [f"{name} moves by at most {by} in a tick" for name, by in cells.items()]
    return f", since {' and '.join(told_cells)}" if told_cells else ""


def searched(job, it):
    if not job.solver:
        return ", as no solver was asked"
    if job.study.unwinding:
        return ""
    return f"; no rows of {many(it.searched, 'tick')} do" if it.searched else ""


def rows_told(job, it, front):
    """Rows that were found, and where they are."""
    if it.file:
        return [f"{front}: rows in {it.file}, confirmed by {it.by}"]
    return [f"{front}: found and confirmed by {it.by}, with these rows", *(f"    {line}" for line in job.rows_text(it.rows).splitlines())]


def wish_told(job, it):
    """What is known of an expression."""
    if it.answer == "never":
        return [f"always {it.text}: holds in every tick that doesn't trap ({by_whom(job, it)})"]
    if it.answer == "found":
        return rows_told(job, it, f"not always {it.text}: breaks in tick {len(it.rows)}")
    return [f"always {it.text}: unknown{searched(job, it)}".replace(" do", " break it")]


def counted(answers):
    """How many operations there are of each answer."""
    count = {it: answers.count(it) for it in ORDER}
    safe = f", {count['safe']} safe for a number of ticks" if count["safe"] else ""
    return (f"{many(len(answers), 'checked operation')}: {count['never']} never trap{'s' if count['never'] == 1 else ''}, "
            f"{count['found']} can trap{safe}, {count['unknown']} unknown")


def bound_told(job):
    """The turns of loops and the statements of a tick."""
    found, lines = job.study.invariants.found, []
    for it, turns in found.turns.items():
        lines.append(f"turns at most: {turns} of {job.places.spot(it)}")
    whole = job.proved_bound()
    rests = f"confirmed by {job.solver.kind}" if job.study.confirmed else "checked by nothing"
    lines.append(f"a tick executes at most {found.cost} statements, by the ranges of cells, which are {rests}; "
                 f"{whole} by blechc bound, which is proved for all cells")
    return lines
