"""The report as a text for a terminal: the same parts as the page has, but for the picture and the request file."""

from . import overview
from .run import STATES

SHOWN_LINES = 3


def lines_of(lines):
    more = f" and {len(lines) - SHOWN_LINES:,} more" if len(lines) > SHOWN_LINES else ""
    return f"line {', '.join(map(str, lines[:SHOWN_LINES]))}{more}"


def tally(answers):
    return ", ".join(f"{answers[state]:,} {name}" for state, name in STATES.items() if answers[state]) or "none"


def hooks(run):
    yield "HOOKS"
    for state, name in STATES.items():
        yield f"  {run.counts[state]:>9,}  {name}"


def epochs(run):
    yield "EPOCHS"
    for epoch in run.epochs[:overview.EPOCHS]:
        began = f"line {epoch.line}" if epoch.line else "the start"
        policy = epoch.policy.title if epoch.policy else "no policy"
        yield (f"  {epoch.number}, began by {began}: {policy}, enforce {'on' if epoch.enforce else 'off'}, "
               f"success_audit {'on' if epoch.success_audit else 'off'}; hooks: {tally(epoch.answers)}")
    if len(run.epochs) > overview.EPOCHS:
        yield f"  and {len(run.epochs) - overview.EPOCHS:,} more"


def files(run):
    yield "FILES"
    for file in run.files.values():
        line = f"line {file.line}: " if file.line else ""
        seal = f", sealed by line {file.seal}" if file.seal else ""
        yield f"  {file.path}  ({line}{file.place or 'kernel loads, and memory without a file'}{seal})"
        for answer in file.shown:
            times = f" {len(answer.lines):,} times" if len(answer.lines) > 1 else ""
            yield f"    {answer.label}: {STATES[answer.state]}{times}, {answer.by}; {lines_of(answer.lines)}"
        if file.more:
            yield f"    and {file.more:,} more kinds of answers"
        if not file.answers:
            yield "    no hook asked"
        for content, lines in file.contents.items():
            yield f"    content {content}; {lines_of(lines)}"


def rules(run):
    yield "RULES"
    policies, more = overview.policies(run)
    for policy in policies:
        yield f"  {policy.title}, policy {policy.serial}, brought by line {policy.line}"
        for statement in policy.statements.values():
            total = sum(statement.answers.values())
            decided = f"{total:,} ({tally(statement.answers)})" if total else "never decided"
            yield f"    {statement.label}, line {statement.line}: {statement.text}: {decided}"
    if more:
        yield f"  and {more:,} more policies, whose texts the request file has"
    if not run.policies:
        yield "  the gate took no policy"


def audit(run):
    yield "AUDIT LOG"
    for title, records, more in overview.audits(run):
        yield f"  {title}: {len(records) + more:,} records"
        for line, record in records:
            yield f"    line {line}: {record}"
        if more:
            yield f"    and {more:,} more, which are in the transcript"
    if overview.policies(run)[1]:
        yield f"  and the records of {overview.policies(run)[1]:,} more policies, which are in the transcript"


def corrupt(run):
    yield "CORRUPT CONTENT"
    for file, content, lines in run.corrupt:
        yield f"  {file.path}: {content}; {lines_of(lines)}"
    if not run.corrupt:
        yield "  none"


def text(run, title):
    """The whole summary of a run."""
    parts = [[f"What the gate says to {title}", overview.summary(run)]]
    parts += [list(part(run)) for part in (hooks, epochs, files, rules, audit, corrupt)]
    return "\n\n".join("\n".join(part) for part in parts) + "\n"
