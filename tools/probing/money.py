"""No more coins are ordered than may be, whatever a hopper does."""

from pathlib import Path

from habits import AnySerial, AlwaysOn
from kept import want_all_kept
from run import Bench, Run, left_well
from tally import want, want_at_most
from tried import Coins, Payer
from wire import HOST, message


def ordered_in(run: Run, checks: dict[str, str]) -> list[tuple[str, int]]:
    """Each dispense that was sent, by the address and the coins."""
    asked = [(fields[0], message(checks[fields[0]], bytes.fromhex(fields[1]))) for fields in run.fields("wire")
             if fields[0] in checks and fields[1] != "-"]
    return [(address, one[3][3]) for address, one in asked if one and one[2] == 167]


def of(program: Path, most: int, make) -> None:
    """Two hoppers, and a word for so many coins."""
    what = f"{make.__name__}s and {most} coins"
    hoppers = [make(3), make(5, "crc")]
    bench = Bench(program, hoppers)
    run = bench.run("--coins", most, hands=None)
    sent = sum(hopper.ordered for hopper in hoppers)
    want_at_most(f"{what}: the coins that were ordered", sent, most)
    want_at_most(f"{what}: the coins that fell", sum(hopper.fallen for hopper in hoppers), most)
    want(f"{what}: a hopper is asked for coins", [hopper.times(167) > 0 for hopper in hoppers][:1], [most > 0])
    lines = ordered_in(run, {"3": "simple", "5": "crc"})
    want(f"{what}: each dispense is told", sum(coins for _, coins in lines), sent)
    want(f"{what}: what is ordered is told before", announced(run, {"3": "simple", "5": "crc"}), [])
    want(f"{what}: what fell is told", run.fields("fell"),
         [[str(hopper.address), str(hopper.fallen)] for hopper in hoppers])
    if make is Payer:
        lacks = {tuple(fields) for fields in run.fields("untried")}
        want(f"{what}: what isn't tried", {fields[2] for fields in lacks}, {"hands"} if most == 20 else {"hands", "coins"})
        want_all_kept(what, run, hoppers, lacks)
    left_well(what, hoppers)
    bench.close()


def announced(run: Run, checks: dict[str, str]) -> list[str]:
    """The lines of dispenses for more coins than a line `pays` of their trial tells."""
    wrong, room = [], 0
    for line in run.lines:
        fields = line.split(" ")
        if fields[0] == "trial":
            room = 0
        elif fields[0] == "pays":
            room = int(fields[2])
        elif fields[0] == "wire" and fields[1] in checks and fields[2] != "-":
            asked = message(checks[fields[1]], bytes.fromhex(fields[2]))
            if asked and asked[2] == 167:
                room -= asked[3][3]
                wrong += [line] if room < 0 else []
    return wrong


def counts(most: int, make):
    def part(programs: dict[str, Path], short: bool) -> None:
        of(programs["cct_probe"], most, make)
    return part


def nothing_tried(programs: dict[str, Path], short: bool) -> None:
    """Without words nobody is asked and no coin is ordered, and each premise that wants one is told as not tried."""
    devices = [Coins(2), Payer(3, "crc")]
    bench = Bench(programs["cct_probe"], devices)
    run = bench.run()
    what = "no words"
    untried = {*(("2", premise, "hands") for premise in ("accepts", "events", "power", "count", "empty")),
               ("2", "wrap", "long"), ("3", "lasts", "hands"),
               *(("3", premise, "coins") for premise in ("rises", "serial", "enable", "busy", "stop"))}
    want_all_kept(what, run, devices, untried)
    want(f"{what}: nobody is asked", run.fields("do"), [])
    want(f"{what}: nothing is ordered", (run.fields("pays"), devices[1].times(167)), ([], 0))
    want(f"{what}: what holds", run.fields("holds"), [["disk"]])
    left_well(what, devices)
    bench.close()


def skipped(programs: dict[str, Path], short: bool) -> None:
    """A person who skips all breaks nothing."""
    devices = [Coins(2, "crc")]
    bench = Bench(programs["cct_probe"], devices)
    run = bench.run("--hands", "--long", hands=lambda address, act, place: False)
    want_all_kept("all skipped", run, devices, {("2", premise, "skipped") for premise in (
        "accepts", "events", "power", "count", "empty", "wrap")})
    want("all skipped: what was taken", run.fields("took"), [["2", "0"]])
    left_well("all skipped", devices)
    bench.close()


def quiet(programs: dict[str, Path], short: bool) -> None:
    """Without its exchanges a run tells those that show something broken."""
    devices = [AlwaysOn(3)]
    bench = Bench(programs["cct_probe"], devices)
    run = bench.run("--quiet", "--coins", "1")
    want("quiet: what is broken", run.broken(), {(3, "enable")})
    want("quiet: the lines of exchanges", [line for line in run.lines if line.startswith("wire ")], list(run.shown().values()))
    want("quiet: the exchange", run.shown()["early"].split(" ")[2][:8], "030401a7")
    bench.close()


PARTS = {"nothing_tried": nothing_tried, "skipped": skipped, "quiet": quiet,
         **{f"coins_{most}": counts(most, Payer) for most in (0, 1, 2, 9, 13, 20)},
         **{f"any_serial_{most}": counts(most, AnySerial) for most in (1, 2, 12)}}
SHORT = ("nothing_tried", "skipped", "coins_2")
