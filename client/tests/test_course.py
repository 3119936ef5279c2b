"""The exercises of course/: what is asked there is shown by the bad schedule that stands beside it, and by nothing else."""
import glob
import os
import subprocess
import sys
import unittest

from .support import AUD, CLIENT

COURSE = os.path.join(CLIENT, "..", "course")
GOOD = {
    "01-lost-updates": "least",
    "02-buffer-object": "overrun",
    "03-buffer-task": "dropped",
    "04-philosophers": "stuck",
    "05-semaphores": "stuck",
    "06-readers-writers": "starved",
    "07-barrier": "lapped",
    "08-dekker": "both_inside",
    "09-peterson": "both_inside",
    "10-alarm-clock": "missed",
    "11-pipeline": "overtaken",
    "12-time-outs": "late",
    "13-runaway": "runs_on",
    "14-requeue": "stuck",
}


def check(folder):
    """How the client grades an exercise's sessions: its status, and which sessions are good."""
    files = sorted(glob.glob(os.path.join(COURSE, folder, "*.session")))
    words = [sys.executable, os.path.join(CLIENT, "aud"), "check", os.path.join(COURSE, folder, "asked"), *files]
    done = subprocess.run(words, capture_output=True, text=True, timeout=120, env={**os.environ, "AUD": AUD})
    rows = [it.split() for it in done.stdout.splitlines() if ".session" in it]
    return done.returncode, len(rows) == len(files), [os.path.basename(it[0])[: -len(".session")] for it in rows if it[-1] == "good"]


class Exercises(unittest.TestCase):
    def test_each_is_listed(self):
        self.assertEqual(sorted(os.path.basename(os.path.dirname(it)) for it in glob.glob(os.path.join(COURSE, "*", "asked"))), sorted(GOOD))

    def test_what_is_asked_is_shown(self):
        for folder, name in GOOD.items():
            with self.subTest(folder):
                self.assertEqual(check(folder), (1, True, [name]))
