"""What the page and the summary for a terminal tell alike."""

# How much of each is told; how many more there are is told too.
RECORDS = 400
EPOCHS = 500
POLICIES = 200


def counted(number, one, many=None):
    return f"{number:,} {one if number == 1 else many or one + 's'}"


def summary(run):
    """What a run holds, in a sentence."""
    workers = len({step.action.who for step in run.steps if step.action.hook})
    refused = f", {run.refused:,} of them refused," if run.refused else ""
    return (f"{counted(run.hooks, 'hook')} by {counted(workers, 'worker')} and {counted(run.commands, 'command')}{refused} in "
            f"{counted(len(run.requests.phases), 'phase')}; {counted(len(run.policies), 'policy', 'policies')} taken, "
            f"{counted(len(run.epochs), 'epoch')}.")


def audits(run):
    """The records by the policy that they are about, at most RECORDS of each, and how many more there are."""
    for serial, records in sorted(run.records.items(), key=lambda item: item[0] or 0):
        if (serial or 0) > POLICIES:
            return
        title = f"{run.policies[serial].title} (policy {serial})" if serial else "without an active policy"
        yield title, records[:RECORDS], max(0, len(records) - RECORDS)


def policies(run):
    """The policies that are told, and how many more there are."""
    return list(run.policies.values())[:POLICIES], max(0, len(run.policies) - POLICIES)
