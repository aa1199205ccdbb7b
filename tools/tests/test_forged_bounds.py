"""Bounds right and forged: the second checker says what the definitions say, and the program says what it says."""
import random
import subprocess

from tools.compare import bounds
from tools.compare.second import recheck
from tools.forged_logs import DATA, text

LOG = DATA / "receiver.log"
FEW = 120  # of each kind, without the program
ALL = 1500, 500  # over one box, and behind the steps of a log


def second(data):
    """What the second checker says of a log."""
    try:
        return f"yes {recheck.Judge(recheck.read_log(data)).verdict()}"
    except recheck.Ended as end:
        return end.args[1]


def over_one_box(number):
    """(name, bytes, answer by the definitions) of logs of one box."""
    return [(name, text(lines), answer) for name, lines, answer in bounds.over_one_box(random.Random(66), number)]


def test_the_second_checker_agrees_with_the_definitions():
    answers = []
    for name, data, answer in over_one_box(FEW):
        assert second(data) == answer, name
        answers.append(answer[:5])
    assert min(map(answers.count, ("yes 1", "no 66"))) > FEW // 5


def test_forged_bounds_of_recorded_epochs_are_told():
    answers = [second(data)[:5] for _, data in bounds.with_bounds(random.Random(66), LOG.read_bytes(), FEW)]
    assert set(answers) == {"yes 1", "no 66"}  # of 12 boxes an epoch
    assert min(map(answers.count, answers)) > FEW // 5


def test_the_program_says_the_same_of_forged_bounds(program, room):
    logs = over_one_box(ALL[0])
    put_behind = bounds.with_bounds(random.Random(66), LOG.read_bytes(), ALL[1])
    logs += [(name, data, second(data)) for name, data in put_behind]
    path = room / "log"
    for name, data, answer in logs:
        path.write_bytes(data)
        ran = subprocess.run([program, "judge", path], capture_output=True, text=True, check=False)
        assert ran.stdout + ran.stderr == answer + "\n", name
