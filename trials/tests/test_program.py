#!/usr/bin/env python3
"""The tests of trials/program: each of its groups tells wrong programs, and finds nothing in the right one.

Runs with no more than Python and a shell: trials/tests/test_program.py. The variable TIERRA names the right program, as for trials/program.
"""
import contextlib
import importlib.machinery
import importlib.util
import io
import os
import pathlib
import sys
import tempfile
import unittest

sys.dont_write_bytecode = True
here = pathlib.Path(__file__).resolve().parent
right = os.path.abspath(os.environ.get("TIERRA", here.parent.parent / "crates/tierra/out/tierra"))
RIGHT = 'exec "$right" "$@"'
OTHER_STATUS = '"$right" "$@"; status=$?; {}; exit $status'
ELSEWHERE = 'here=$PWD; cd "$(mktemp -d)"; "$right" "$@" >text; status=$?; cp tierra.* "$here"; cat text{}; rm -r "$PWD"; exit $status'
WITH_WORKERS = 'exec "$right" $(echo "$*" | sed "s/--workers {}$/--workers {}/")'
WAY = f'exec "{sys.executable}" "{here}/stand_in.py" "$right" "$(dirname "$0")" {{}} "$@"'
# What a wrong program does, how a shell makes it of the right one, the group that tells it, and words of its finding.
WRONG = [
    ("empties the file that it opens", '[ "$1" = bank ] || : >tierra.bank; ' + RIGHT, "files", "over the file of a longer run: left"),
    ("keeps 4,096 bytes of what it writes", OTHER_STATUS.format('[ ! -f tierra.bank ] || truncate -s "<4141" tierra.bank'), "files",
     "a large group, as the file has it"),
    ("reads a file of more than 4,096 bytes as an empty one", '[ "$1" != bank ] || [ "$(wc -c <tierra.bank)" -le 4096 ] || exit 0; ' + RIGHT,
     "files", "a large group, as `bank` reads it"),
    ("takes a file that it cannot open for a missing one", '"$right" "$@" 2>line; status=$?; [ $status -ne 5 ] || exit 0; cat line >&2; exit $status',
     "unopened", "a folder in the file's place: status 0, not 5"),
    ("lets lines go into the file", '[ -e /proc/$$/fd/1 ] || exec 1<>tierra.bank; ' + RIGHT, "streams", "no beginning of the whole file"),
    ("says that a full output is well", '"$right" "$@" 2>line; status=$?; [ $status -ne 6 ] || exit 0; cat line >&2; exit $status', "streams",
     ">/dev/full: status 0, not 6"),
    ("dies of a closed pipe", OTHER_STATUS.format("[ $status -ne 6 ] || kill -PIPE $$"), "streams", "to a closed pipe: status -13, not 6"),
    ("writes its line to the output", 'exec "$right" "$@" 2>&1', "statuses", "told b'tierra: "),
    ("writes no line", 'exec "$right" "$@" 2>/dev/null', "statuses", "wrote b'', not"),
    ("ends with another status", OTHER_STATUS.format("[ $status -ne 8 ] || status=3"), "statuses", "status 3, not 8"),
    ("prints at a refusal", OTHER_STATUS.format("[ $status -ne 2 ] || echo oh"), "statuses", "told b'oh"),
    ("touches a file that it refuses", OTHER_STATUS.format("[ $status -ne 3 ] || touch tierra.bank"), "statuses", "is damaged': left"),
    ("keeps checkpoints in the genebank", OTHER_STATUS.format('[ ! -f tierra.hold ] || mv tierra.hold tierra.bank'), "names",
     "made ['tierra.bank'], not ['tierra.hold']"),
    ("keeps the genebank among checkpoints", OTHER_STATUS.format('[ ! -f tierra.bank ] || mv tierra.bank tierra.hold'), "names",
     "made ['tierra.hold'], not ['tierra.bank']"),
    ("makes a file of its own", '[ "$1" != dump ] || : >dump; ' + RIGHT, "names", "made ['dump'], not []"),
    ("touches the genebank that it reads", '[ "$1" != bank ] || touch tierra.bank; ' + RIGHT, "names", "touched a file that is not its own"),
    ("prints anything at want of memory", OTHER_STATUS.format("[ $status -ne 7 ] || echo oh"), "memory", "no beginning of the right text"),
    ("says 0 at want of memory", OTHER_STATUS.format("[ $status -ne 7 ] || status=0"), "memory", "status 0 without the whole text"),
    ("leaves a wrong file at want of memory", OTHER_STATUS.format("[ $status -ne 7 ] || printf Tierra_bank1%099d 1 >tierra.bank"), "memory",
     "no true file of this run"),
    ("runs with one worker", WITH_WORKERS.format("[0-9]*", 1), "threads", "1 threads, not 4"),
    ("starts three workers at most", WITH_WORKERS.format("[4-8]", 3), "threads", "3 threads, not 4"),
    ("runs with one worker", WITH_WORKERS.format("[0-9]*", 1), "shares", "one thread took 100% of the work"),
    ("looks at the beginning alone", '"$right" "$@" | sed "s/^sight quanta [0-9]*/sight quanta 7/"', "looks", "no look in the second half"),
    ("keeps and tells all at the end", ELSEWHERE.format(""), "moments", "told nothing until"),
    ("tells all at the end", '"$right" "$@" >text; status=$?; cat text; exit $status', "moments", "told nothing until"),
    ("hangs at a fault", OTHER_STATUS.format("case $status in 5|6) exec sleep 60;; esac"), "stops", "did not end in"),
    ("goes on after a fault", ELSEWHERE.format(' || { echo "tierra: cannot write the output" >&2; status=6; }'), "stops", "it went on after the fault"),
    ("wakes for nobody", WAY.format('"wakes for nobody"'), "stops", "did not end in"),
    ("syncs nothing", WAY.format("fwt"), "syncs", "before a sync of what was written"),
    ("tells a line before the sync", WAY.format("fwts"), "syncs", "before a sync of what was written"),
    ("tells a line before its record", WAY.format("ftws"), "syncs", "before its genotype is on disk"),
    ("syncs no folder", WAY.format("wst"), "syncs", "the folder is not synced"),
    ("opens the genebank for writing", '[ "$1" != bank ] || exec 7<>tierra.bank; exec 7>&-; ' + RIGHT, "syncs", "calls openat"),
]
# What a group tries here, where less than all of its cases tells enough.
FEWER = {
    "files": lambda trials: {"FILE_ROWS": trials.FILE_ROWS[1:2]},
    "unopened": lambda trials: {"KEEPERS": trials.KEEPERS[-2:], "forbidden_files": lambda: None},
    "streams": lambda trials: {"ACTIONS": actions(trials, "grow", "asm"), "STREAMS": [trials.STREAMS[1], trials.STREAMS[7]]},
    "statuses": lambda trials: {"ACTIONS": actions(trials, "grow"), "BAD_WORDS": trials.BAD_WORDS[:3]},
    "names": lambda trials: {"ACTIONS": actions(trials, "grow", "hold", "dump", "bank")},
    "memory": lambda trials: {"memory_rows": lambda: [("run --quanta 9000", trials.MUTANTS, trials.BANK, None)]},
    "threads": lambda trials: {"THREAD_ROWS": trials.THREAD_ROWS[-2:-1], "WORKERS": (1, 4)},
    "shares": lambda trials: {"SHARE_ROWS": trials.SHARE_ROWS[:1]},
    "moments": lambda trials: {"LONG_RUNS": trials.LONG_RUNS[1:2]},
    "stops": lambda trials: {"LONG_RUNS": trials.LONG_RUNS[1:2]},
    "syncs": lambda trials: {"ACTIONS": actions(trials, "run", "bank")[1:]},
}


def actions(trials, *names):
    return [action for action in trials.ACTIONS if action.words.split()[0] in names]


def loaded():
    """The script as a new module, with nothing counted yet."""
    loader = importlib.machinery.SourceFileLoader("trials_program", str(here.parent / "program"))
    module = importlib.util.module_from_spec(importlib.util.spec_from_loader(loader.name, loader))
    loader.exec_module(module)
    return module


def findings_in(group, shell):
    """What a group finds in a program that a shell makes of the right one, and what it could not check."""
    trials = loaded()
    script = trials.files / "program"
    script.write_text(f"#!/bin/sh\nright={right}\n{shell}\n")
    script.chmod(0o755)
    vars(trials).update(FEWER.get(group, lambda _: {})(trials), program=str(script))
    if shell != RIGHT:
        trials.tries, trials.limit = 2, 20
    if "sleep" in shell or "wakes" in shell:
        trials.limit = 5
    if group == "syncs" and "stand_in" in shell:
        for action in trials.ACTIONS:  # it keeps the answers of the right program, which is then not seen among its calls
            trials.run(action.words, action.source, trials.new_room())
    with contextlib.redirect_stdout(io.StringIO()):
        trials.GROUPS[group]()
    return trials.findings, trials.unchecked


@unittest.skipUnless(os.access(right, os.X_OK), f"there is no program {right}")
class Programs(unittest.TestCase):
    def test_wrong_programs_are_told(self):
        for wrong, shell, group, words in WRONG:
            with self.subTest(wrong=wrong, group=group):
                findings, unchecked = findings_in(group, shell)
                if not unchecked:
                    self.assertIn(words, "\n".join(findings))

    def test_right_program_is_not_found_fault_with(self):
        for group in loaded().GROUPS:
            with self.subTest(group=group):
                self.assertEqual(findings_in(group, RIGHT)[0], [])

    def test_each_group_tells_a_wrong_program(self):
        self.assertEqual({group for _, _, group, _ in WRONG}, set(loaded().GROUPS))


RECORD = r'''
7 openat(AT_FDCWD, "\x74\x2e\x62", O_RDWR|O_CREAT, 0666) = 6
7 openat(AT_FDCWD, "\x2e", O_RDONLY) = 7
7 fsync(7) = 0
7 pwrite64(6, "\x01\x02", 2, 0 <unfinished ...>
8 write(2, "\x0a", 1) = 1
7 <... pwrite64 resumed>) = 2
7 fsync(6) = 0
7 write(1, "\x71\x0a", 2) = 2
'''.strip()


class Helpers(unittest.TestCase):
    def setUp(self):
        self.trials = loaded()

    def test_names(self):
        self.assertEqual([self.trials.name_of(80, rank) for rank in (0, 1, 17575, 17576)], ["0080aaa", "0080aab", "0080zzz", "0080aaaa"])

    def test_calls_of_several_threads(self):
        calls = self.trials.calls_in(RECORD)
        self.assertEqual([call.name for call in calls], ["openat", "openat", "fsync", "write", "pwrite64", "fsync", "write"])
        self.assertEqual((calls[4].begin, calls[4].end, self.trials.bytes_in(calls[4].words)), (3, 5, b"\1\2"))
        self.assertEqual(self.trials.order_faults(calls, "t.b"), [])

    def test_order_of_calls(self):
        rows = RECORD.splitlines()
        for without, fault in [("7 fsync(6) = 0", "before a sync"), ("7 fsync(7) = 0", "the folder is not synced")]:
            calls = self.trials.calls_in("\n".join(row for row in rows if row != without))
            self.assertIn(fault, " ".join(self.trials.order_faults(calls, "t.b")))
        failed = self.trials.calls_in(RECORD.replace("fsync(6) = 0", "fsync(6) = -1"))
        self.assertIn("before a sync", " ".join(self.trials.order_faults(failed, "t.b")))

    def test_beginnings_of_a_file(self):
        image = b"Tierra bank1" + bytes(32) + b"\1" + self.record(b"one") + b"\1" + self.record(b"two") + b"\0"
        self.assertEqual(len(self.trials.records_of(image)), 2)
        for part in self.trials.parts_of(image):
            self.assertTrue(self.trials.is_beginning(part + b"rest", image))
        self.assertFalse(self.trials.is_beginning(image[:45] + self.record(b"six") + b"\0", image))
        self.assertFalse(self.trials.is_beginning(image[:-9], image))

    def record(self, content):
        return len(content).to_bytes(4, "big") + content + self.trials.hashlib.sha256(content).digest()

    def test_share_of_the_second_thread(self):
        self.assertEqual(self.trials.second_share({"1": 30, "2": 10}), 0.25)
        self.assertEqual(self.trials.second_share({"1": 30}), 0)


if __name__ == "__main__":
    unittest.main()
