"""How far something long is, for whoever waits for it."""
import sys
import time

BETWEEN = 5.0  # seconds
_begun: dict[str, float] = {}
_last = 0.0


def progress(done: int, total: int, what: str) -> None:
    """Says on standard error that so many of all are done: 'tests: random sessions: 12 of 200'. It
    says so every 5 seconds at most, and nothing of what takes less than that. It is called before
    the first one, with 0, and then after each."""
    global _last
    now = time.monotonic()
    begun = _begun.setdefault(what, now)
    if done >= total:
        del _begun[what]
    elif now - begun >= BETWEEN and now - _last >= BETWEEN:
        _last = now
        print(f'tests: {what}: {done} of {total}', file=sys.stderr, flush=True)
