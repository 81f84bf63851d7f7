"""What a script wanted, and whether it was so."""

import sys

results = []


def cut(value) -> str:
    """A value as it is printed: the front of a long one."""
    text = repr(value)
    return text if len(text) <= 600 else f"{text[:600]} .."


def want(what: str, got, wanted) -> None:
    results.append(got == wanted)
    if got != wanted:
        print(f"FAILED: {what}: {cut(got)}, and not {cut(wanted)}", file=sys.stderr, flush=True)


def want_at_most(what: str, got: float, most: float) -> None:
    results.append(got <= most)
    if got > most:
        print(f"FAILED: {what}: {got:.3f}, and at most {most:.3f} was wanted", file=sys.stderr, flush=True)
