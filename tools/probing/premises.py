"""What is relied on of devices, by their kind, and which promise rests on it."""

COMMON = ("answers", "prompt", "once", "alone", "form", "check", "cut", "unknown", "identity")
TAKER = ("empty", "inhibited", "master", "mask", "accepts", "wrap", "count", "power")
OF_KIND = {
    "acceptor": (*COMMON, *TAKER, "events", "places"),
    "bills": (*COMMON, *TAKER, "places", "route"),
    "hopper": (*COMMON, "rises", "life", "lasts", "serial", "enable", "busy", "stop", "status"),
}
LINE = ("others", "quiet")
PROMISES = ("coins", "orders", "disk")
BOTH = ("prompt", "once", "alone", "check", "identity", *LINE)
RESTS_ON = {
    "coins": {*BOTH, *(premise for premise in TAKER if premise != "master"), "events", "places", "route"},
    "orders": {*BOTH, "cut", "rises", "life", "lasts", "serial", "enable", "busy", "stop", "status"},
    "disk": set(),
}


def promised(broken: set[tuple[str, str]], untried: set[tuple[str, str]]) -> set[tuple[str, ...]]:
    """What is told of the promises, where these premises are broken, and these weren't tried, each with its address."""
    told = set()
    for promise in PROMISES:
        fails = {("fails", promise, *at) for at in broken if at[1] in RESTS_ON[promise]}
        opens = {("open", promise, *at) for at in untried if at[1] in RESTS_ON[promise]}
        told |= fails or opens or {("holds", promise)}
    return told


def of_all(devices: list) -> set[tuple[str, str]]:
    """Each premise of each device and of the line, as a line `kept` names it."""
    return {*((str(device.address), premise) for device in devices for premise in OF_KIND[device.word]),
            *(("0", premise) for premise in LINE)}
