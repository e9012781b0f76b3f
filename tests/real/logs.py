"""Logs that clients wrote by APPEND: each token begins with its client's number and its place there, as `3.17.` does."""

from harness import Failed, check


def check_log(log, answered, lost=()):
    """`answered` has for each client its tokens in order, each with the length that the reply named; `lost` those that ended lost.

    Each answered token stands once, where its reply says, after the tokens that its client had answered before.
    A lost one stands at most once, and no other is there.
    """
    tokens = [it + b";" for it in (log or b"").split(b";")[:-1]]
    counts = {}
    for token in tokens:
        counts[token] = counts.get(token, 0) + 1
    for mine in answered:
        place = 0
        for token, length in mine:
            if counts.pop(token, 0) != 1:
                raise Failed(f"{token!r} does not stand in the log once")
            if not log.endswith(token, 0, length):
                raise Failed(f"{token!r} does not end at {length}, as its reply said")
            if length <= place:
                raise Failed(f"{token!r} stands before a token of its client that was answered earlier")
            place = length
    for token in lost:
        check(counts.pop(token, 0) <= 1, f"{token!r}, whose connection was lost, stands twice")
    check(not counts, f"tokens that nobody sent, or that were refused: {list(counts)[:5]}")


def check_lost_together(log, lost, most):
    """Tokens that ended lost and that one client sent one behind another, no more than go together, stand in the log all or none."""
    there, runs = set((log or b"").split(b";")), []
    for it in sorted(tuple(map(int, token[:-1].split(b"."))) for token in lost):
        if runs and it[:-1] == runs[-1][-1][:-1] and it[-1] == runs[-1][-1][-1] + 1:
            runs[-1].append(it)
        else:
            runs.append([it])
    for run in filter(lambda run: len(run) <= most, runs):
        stand = [b".".join(b"%d" % number for number in it) in there for it in run]
        check(all(stand) or not any(stand), f"of {len(run)} tokens that were lost together from {run[0]} on {sum(stand)} stand in the log")
    return len(runs)
