"""The schedule of a build, with a simulated table of crates: when each crate begins, and in how many jobs."""
import os
import unittest

from support import InFolder

from qss_dev.schedule import Schedule, Shares, longest_chains, work_of

# Two low crates, of which many depend; a long one on top of all, and a short one on top of that.
BELOW = {
    "a": [],
    "b": [],
    "c": ["a"],
    "d": ["a"],
    "e": ["a", "b"],
    "f": ["b"],
    "long": ["c", "d", "e", "f"],
    "top": ["long"],
}
WORK = {"a": 10.0, "b": 30.0, "c": 50.0, "d": 5.0, "e": 20.0, "f": 25.0, "long": 100.0, "top": 10.0}


def simulated(below, work, processors, most=4):
    """The begin, the end and the jobs of each crate, where each job does its share without any loss."""
    schedule = Schedule(below, work, Shares(processors, min(processors, most)))
    waiting, built, running, found, now = set(work), set(), {}, {}, 0.0
    while waiting or running:
        for name, jobs in schedule.begin(waiting, built, len(running)):
            running[name] = now + work[name] / jobs
            found[name] = now, running[name], jobs
            waiting.discard(name)
        now = min(running.values())
        for name in [it for it, end in running.items() if end == now]:
            del running[name]
            built.add(name)
    return found


class Simulated(unittest.TestCase):
    def test_chains(self):
        chains = {"a": 170, "b": 165, "c": 160, "d": 115, "e": 130, "f": 135, "long": 110, "top": 10}
        self.assertEqual(longest_chains(BELOW, WORK), chains)

    def test_two_processors(self):
        found = simulated(BELOW, WORK, 2)
        # (d, which has the shortest chain, comes last of those below the long one)
        wanted = {
            "a": (0, 10, 1),
            "b": (0, 30, 1),
            "c": (10, 60, 1),
            "f": (30, 55, 1),
            "e": (55, 75, 1),
            "d": (60, 65, 1),
        }
        self.assertEqual(found, {**wanted, "long": (75, 125, 2), "top": (125, 135, 1)})

    def test_four_processors(self):
        found = simulated(BELOW, WORK, 4)
        wanted = {
            "a": (0, 10, 1),
            "b": (0, 30, 1),
            "c": (10, 60, 1),
            "d": (10, 15, 1),
            "f": (30, 55, 1),
            "e": (30, 50, 1),
        }
        self.assertEqual(found, {**wanted, "long": (60, 85, 4), "top": (85, 95, 1)})

    def test_one_processor(self):
        found = simulated(BELOW, WORK, 1)
        self.assertEqual(sorted(found, key=found.get), ["a", "b", "c", "f", "e", "d", "long", "top"])
        self.assertEqual({jobs for _, _, jobs in found.values()}, {1})

    def test_each_crate_comes_after_those_below_it(self):
        for processors in (1, 2, 3, 4, 8):
            found = simulated(BELOW, WORK, processors)
            for name, (begin, _, _) in found.items():
                self.assertTrue(all(found[it][1] <= begin for it in BELOW[name]), name)
                at_work = sum(jobs for other, end, jobs in found.values() if other <= begin < end)
                self.assertLessEqual(at_work, processors)

    def test_more_jobs_only_where_nothing_else_is_ready(self):
        schedule = Schedule({"x": [], "y": [], "z": []}, {"x": 200.0, "y": 300.0, "z": 20.0}, Shares(4, 4))
        self.assertEqual(schedule.begin({"x", "y"}, {"z"}, 0), [("y", 1), ("x", 1)])
        self.assertEqual(schedule.begin({"x"}, {"z"}, 1), [("x", 1)])
        self.assertEqual(schedule.begin({"x"}, {"y", "z"}, 0), [("x", 4)])
        self.assertEqual(schedule.begin({"z"}, {"x", "y"}, 0), [("z", 1)])
        self.assertEqual(schedule.begin({"x"}, {"z"}, 4), [])

    def test_nice_values(self):
        schedule = Schedule(BELOW, WORK, Shares(4, 4))
        self.assertEqual([schedule.nice(it, 170.0) for it in ("a", "long", "top")], [0, 6, 17])


class Work(InFolder):
    def test_lines_of_source(self):
        os.makedirs(f"{self.folder}/crates/one/src")
        self.file("crates/one/src/lib.rt", "//\n" * 150)
        self.assertEqual(work_of(self.folder, "one"), 15)


if __name__ == "__main__":
    unittest.main()
