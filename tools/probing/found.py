"""Each wrong habit is found, by an exchange that shows it, and nothing else is said to be broken."""

from pathlib import Path

from habits import Habit, all_habits
from premises import promised
from run import Bench, left_well
from tally import want

# What the gate plays: the others take longer, or are much like one of these.
SHORT = ("events_over_a_reset", "mask_over_a_reset", "master_over_a_reset", "mask_of_eight_bits", "count_over_a_reset",
         "mask_over_power", "counter_through_0", "counter_stands_still", "six_events", "coin_beside_the_mask", "another_coin",
         "another_bill", "second_route", "life_stays", "life_over_a_reset", "life_over_power", "any_serial", "before_enabling",
         "while_it_pays", "pays_on", "status_over_a_reset", "late", "twice", "two_at_one_address", "any_check_byte",
         "four_bytes", "any_header", "another_serial", "any_address", "a_byte_unasked", "deaf_to_one_question")


# Where these are found a silent read stands before each message from then on, also before each of 200 polls. So in short they
# aren't played to the end.
SLOW = ("late", "twice", "two_at_one_address", "two_at_once")
SLOW_END = "times"


def is_shown(habit: Habit, line: str) -> bool:
    """Whether a line is that of an exchange that shows the habit."""
    fields = line.split(" ")
    if len(fields) != 4 or fields[:2] != ["wire", str(at(habit))]:
        return False
    sent, heard = (b"" if field == "-" else bytes.fromhex(field) for field in fields[2:])
    return heard[:len(sent)] == sent and habit.shows(sent, heard[len(sent):])


def at(habit: Habit) -> int:
    return habit.device.address if habit.address is None else habit.address


def find(program: Path, name: str, habit: Habit, is_cut: bool) -> None:
    bench = Bench(program, [habit.device, *habit.others], echoes=name < "d", setup=habit.setup or [habit.device])
    run = bench.run(*habit.rest, hands=bench.hands, watch=lambda run: is_cut and run.last().endswith(f" {SLOW_END}"))
    want(f"{name}: what is broken, and nothing else", run.broken(), {(at(habit), habit.premise)})
    want(f"{name}: the trial of it is told", habit.trial in run.shown(), True)
    line = run.shown().get(habit.trial, "")
    want(f"{name}: {line} shows it", is_shown(habit, line), True)
    want(f"{name}: it isn't told as kept or untried too",
         [fields for word in ("kept", "untried") for fields in run.fields(word)
          if fields[:2] == [str(at(habit)), habit.premise]], [])
    want(f"{name}: the exit status", run.status, 4 if is_cut else 15)
    if not is_cut:
        want(f"{name}: what is promised", run.promises(), promised({(str(at(habit)), habit.premise)}, run.untried()))
    left_well(name, [habit.device])
    bench.close()


def part_of(name: str):
    def part(programs: dict[str, Path], short: bool) -> None:
        find(programs["cct_probe"], name, all_habits()[name], short and name in SLOW)
    part.__name__, part.__module__ = name, __name__
    return part


PARTS = {name: part_of(name) for name in all_habits()}
