"""Tests of railcadence.py: the worked example's lines, the reset, a ceiling for a contract, several plans, a clock that goes back
and one that ends, numbers that do not fit or are not known, and tables of any size."""

import unittest
from ctypes import c_uint8, c_uint32, c_uint64
from inspect import signature
from pathlib import Path
from typing import get_type_hints

import railcadence
from railcadence import (ADMITTED, BAD_PLAN, BAD_TABLE, CORRUPT_RECORD, EARLY_MOMENT, LATE_MOMENT, NOT_ON_CLOCK, OTHER_PLAN,
                         TABLE_FULL, Answer, Gcra, HttpFields, Number, Plan, Plans, Report, TokenBucket, http_fields,
                         may_retry)

EXAMPLES = Path(__file__).resolve().parents[2] / "examples"
PLAN = Plan(limit=3, period=1000, burst=2)
MUSEUM = Plan(limit=10, period=1000, burst=5)
PLANS = Plans([PLAN])
THREE = Plans([PLAN, MUSEUM, PLAN])
LAST_MOMENT = 2**42 - 1
ENGINES = [Gcra, TokenBucket]


def lines(name):
    """The lines of a text in examples/, as lists of fields."""
    return [line.split("\t") for line in (EXAMPLES / name).read_text().splitlines()]


def stored(table):
    """The columns and the newest moment."""
    records = [list(getattr(table, record)) for record in table._records]
    return [list(table.ids), list(table.plan_numbers), *records, table.newest]


class Calls(unittest.TestCase):
    def check_example(self, name):
        plan, *asks = lines(f"{name}.tsv")
        expected = [Answer(*map(int, fields)) for fields in lines(f"{name}.out")[1:]]
        for engine in ENGINES:
            table, plans = engine(slots=int(plan[1])), Plans([Plan(*map(int, plan[2:]))])
            numbers = [list(map(int, ask[1:])) for ask in asks]
            given = [table.acquire(plans, moment, subscriber, 0, cost) for moment, subscriber, cost in numbers]
            self.assertEqual(given, expected)

    def test_the_worked_example(self):
        self.check_example("worked")

    def test_the_clocks_end(self):
        self.check_example("clock-end")

    def test_a_wait_beyond_the_clock(self):
        for engine in ENGINES:
            table = engine(slots=1)
            self.assertEqual(table.acquire(PLANS, LAST_MOMENT - 333, 7, 0, 2).number, ADMITTED)
            before = stored(table)
            for moment in [LAST_MOMENT - 333, LAST_MOMENT]:
                refused = table.acquire(PLANS, moment, 7, 0, 1)
                self.assertEqual(refused, Answer(NOT_ON_CLOCK, 7, 0, 0, 0))
                self.assertFalse(may_retry(refused.number))
                self.assertEqual(http_fields(PLAN, moment, refused), HttpFields(2, 1, 0, 0, 0))
                self.assertEqual(table.peek(PLANS, moment, 7, 0), Report(None, 7, 0, LAST_MOMENT + 334))
            self.assertEqual(stored(table), before)
            self.assertIsNone(table.clear())
            self.assertEqual(table.acquire(PLANS, LAST_MOMENT, 7, 0, 1).number, ADMITTED)

    def test_the_whole_burst_is_there_at_the_reset(self):
        for engine in ENGINES:
            table = engine(slots=1)
            spent = table.acquire(PLANS, 1000, 7, 0, 2)
            self.assertEqual(spent, Answer(0, 7, 0, 1667, 0))
            self.assertEqual(table.acquire(PLANS, spent.reset - 1, 7, 0, 2), Answer(8, 7, 1, 1667, 1))
            self.assertEqual(table.acquire(PLANS, spent.reset, 7, 0, 2).number, ADMITTED)

    def test_a_run_that_meets_the_ceiling(self):
        asks = [(0, 7, 2), (0, 8, 2), (333, 7, 1), (334, 7, 1), (667, 7, 1), (1000, 7, 1), (1000, 7, 1), (1000, 8, 2)]
        for engine in ENGINES:
            table = engine(slots=2)
            answers = [table.acquire(PLANS, moment, subscriber, 0, cost) for moment, subscriber, cost in asks]
            self.assertEqual([answer.number for answer in answers], [0, 0, 8, 0, 0, 0, 8, 0])
            self.assertEqual(answers[6], Answer(8, 7, 0, 1667, 334))
            notes = [ask for ask, answer in zip(asks, answers) if answer.number == ADMITTED]

            def units(shop, first, last):
                return sum(cost for moment, subscriber, cost in notes if subscriber == shop and first <= moment <= last)

            self.assertEqual([units(7, 0, 1000), units(7, 0, 999), units(7, 1, 1000), units(8, 0, 1000)], [5, 4, 3, 4])
            self.assertEqual(PLAN.limit * 1000 + PLAN.period * PLAN.burst, PLAN.period * units(7, 0, 1000))

    def test_a_clock_that_goes_back(self):
        for engine in ENGINES:
            table = engine(slots=2)
            self.assertEqual(table.acquire(PLANS, 1000, 7, 0, 1).number, ADMITTED)
            before = stored(table)
            for subscriber, cost in [(7, 1), (8, 1), (0, 1), (7, 0), (7, 3)]:
                self.assertEqual(table.acquire(PLANS, 999, subscriber, 0, cost), Answer(EARLY_MOMENT, subscriber, 0, 0, 0))
                self.assertEqual(table.peek(PLANS, 999, subscriber, 0), Report(EARLY_MOMENT, subscriber, 0, 0))
            self.assertEqual(stored(table), before)
            self.assertEqual(table.acquire(PLANS, 1000, 8, 0, 2).number, ADMITTED)
            self.assertEqual(table.acquire(PLANS, 1001, 8, 0, 1), Answer(8, 8, 0, 1667, 333))
            self.assertEqual(table.newest, 1000)
            self.assertEqual(table.acquire(PLANS, 1334, 8, 0, 1).number, ADMITTED)
            self.assertEqual(table.newest, 1334)
            self.assertIsNone(table.clear())
            self.assertEqual(stored(table), stored(engine(slots=2)))
            self.assertEqual(table.acquire(PLANS, 0, 7, 0, 2).number, ADMITTED)

    def test_a_newest_moment_that_was_saved(self):
        for engine in ENGINES:
            table = engine(slots=1)
            for newest in [LAST_MOMENT + 1, 2**64 - 1]:
                table.newest = newest
                self.assertEqual(table.acquire(PLANS, LAST_MOMENT, 7, 0, 1).number, EARLY_MOMENT)
                self.assertEqual(table.peek(PLANS, LAST_MOMENT, 7, 0).refusal, EARLY_MOMENT)
                self.assertEqual(table.acquire(PLANS, LAST_MOMENT + 1, 7, 0, 1).number, LATE_MOMENT)
                self.assertEqual(table.newest, newest)
            self.assertIsNone(table.clear())
            table.newest = 1000
            self.assertEqual(table.acquire(PLANS, 999, 7, 0, 1).number, EARLY_MOMENT)
            self.assertEqual(table.acquire(PLANS, 1000, 7, 0, 1).number, ADMITTED)
            for wrong in [-1, 2**64]:
                with self.assertRaisesRegex(ValueError, f"^newest is {wrong}; it must be"):
                    table.newest = wrong

    def test_the_numbers(self):
        names = {number.name: int(number) for number in Number}
        self.assertEqual(names, {"ADMITTED": 0, "BAD_PLAN": 1, "BAD_TABLE": 2, "LATE_MOMENT": 3, "NO_SUBSCRIBER": 4,
                                 "ZERO_COST": 5, "COST_ABOVE_BURST": 6, "CORRUPT_RECORD": 7, "THROTTLED": 8, "TABLE_FULL": 9,
                                 "EARLY_MOMENT": 11, "OTHER_PLAN": 12, "NOT_ON_CLOCK": 13})
        for name in names:
            self.assertIs(getattr(railcadence, name), Number[name])
        self.assertEqual([number for number in [*range(20), 2**64 - 1] if may_retry(number)], [8, 9, 12])
        self.assertIs(Gcra(slots=1).acquire(PLANS, 1000, 7, 0, 3).number, Number.COST_ABOVE_BURST)
        self.assertIs(Gcra(slots=0).clear(), Number.BAD_TABLE)

    def test_a_number_of_further_rules_stays_a_number(self):
        def further(*arguments):
            arguments[-1][0] = 17

        class Further(Gcra):
            _acquire = _peek = _clear = staticmethod(further)

        table = Further(slots=1)
        for number in [table.acquire(PLANS, 1000, 7, 0, 1).number, table.peek(PLANS, 1000, 7, 0).refusal, table.clear()]:
            self.assertEqual((number, type(number)), (17, int))

    def test_a_peek_admits_nothing(self):
        for engine in ENGINES:
            table = engine(slots=1)
            table.acquire(PLANS, 1000, 7, 0, 2)
            report = table.peek(PLANS, 1000, 7, 0)
            self.assertEqual(report, Report(None, 7, 0, 1667))
            self.assertEqual(report.to_numbers(), (0, 7, 0, 1667, 0))
            self.assertFalse(hasattr(report, "number"))
            self.assertEqual(table.peek(PLANS, 1000, 0, 0).to_numbers(), (4, 0, 0, 0, 0))

    def test_every_call_has_type_hints(self):
        calls = [http_fields, may_retry, Report.to_numbers, Plans.__init__, Plans.__len__, Plans.__getitem__]
        for engine in ENGINES:
            calls += [engine.__init__, engine.acquire, engine.peek, engine.clear, engine.newest.fget, engine.newest.fset]
        for call in calls:
            arguments = set(signature(call).parameters) - {"self"}
            self.assertEqual(set(get_type_hints(call)), arguments | {"return"}, call.__qualname__)

    def test_numbers_that_do_not_fit(self):
        for engine in ENGINES:
            table = engine(slots=1)
            for name, least_wrong in [("moment", 2**64), ("subscriber", 2**32), ("plan", 2**32), ("cost", 2**32)]:
                for wrong in [-1, least_wrong]:
                    arguments = {"moment": 1000, "subscriber": 7, "plan": 0, "cost": 1, name: wrong}
                    with self.assertRaisesRegex(ValueError, f"^{name} is {wrong}; it must be"):
                        table.acquire(PLANS, **arguments)
            with self.assertRaises(TypeError):
                table.peek(PLANS, 1000.5, 7, 0)
            self.assertEqual(table.peek(PLANS, 2**64 - 1, 2**32 - 1, 0), Report(3, 2**32 - 1, 0, 0))
            self.assertEqual(list(table.ids), [0])

    def test_tables_of_any_size(self):
        for engine in ENGINES:
            for slots, refusal in [(0, BAD_TABLE), (1, None), (65535, None)]:
                self.assertEqual(engine(slots).clear(), refusal)
            for slots in [-1, 65536]:
                with self.assertRaisesRegex(ValueError, f"^slots is {slots}; it must be a whole number from 0 to 65535$"):
                    engine(slots)

    def test_65536_slots_are_too_many(self):
        for engine in ENGINES:
            table = engine(65535)
            table.ids, table.plan_numbers = (c_uint32 * 65536)(), (c_uint8 * 65536)()
            for record in table._records:
                setattr(table, record, (c_uint64 * 65536)())
            self.assertEqual(table.acquire(PLANS, 1000, 7, 0, 1), Answer(BAD_TABLE, 7, 0, 0, 0))
            self.assertEqual(table.peek(PLANS, 1000, 7, 0), Report(BAD_TABLE, 7, 0, 0))
            self.assertEqual(table.clear(), BAD_TABLE)

    def test_the_last_of_65535_slots_is_found(self):
        spent = {"tats": 5000, "levels": 0, "lasts": 1000}  # what the whole burst leaves at 1000
        for engine in ENGINES:
            table = engine(65535)
            table.ids[:] = [*range(1, 65535), 0]
            for record in table._records:
                getattr(table, record)[:] = [spent[record]] * 65534 + [2**64 - 1]  # of an empty slot it does not matter
            self.assertEqual(table.acquire(PLANS, 1000, 65536, 0, 2), Answer(0, 65536, 0, 1667, 0))
            self.assertEqual(table.acquire(PLANS, 1000, 65535, 0, 1), Answer(TABLE_FULL, 65535, 0, 0, 0))
            self.assertEqual(list(table.ids), [*range(1, 65535), 65536])
            for record in table._records:
                self.assertEqual(list(getattr(table, record)), [spent[record]] * 65535)

    def test_what_a_client_is_told(self):
        plan = Plan(limit=60, period=3_600_000, burst=12)
        plans, table = Plans([plan]), Gcra(slots=1)
        table.acquire(plans, 0, 7, 0, 12)
        throttled = table.acquire(plans, 500, 7, 0, 1)  # 59,500 ms to wait
        self.assertEqual(http_fields(plan, 500, throttled), HttpFields(12, 720, 0, 720, 60))
        self.assertEqual(http_fields(plan, 500, table.peek(plans, 500, 7, 0)), HttpFields(12, 720, 0, 720, 0))
        self.assertEqual(http_fields(plan, 500, table.peek(plans, 500, 0, 0)), HttpFields(12, 720, 0, 0, 0))
        self.assertEqual(http_fields(plan._replace(limit=0), 500, throttled), HttpFields(0, 0, 0, 0, 0))
        with self.assertRaisesRegex(ValueError, "^moment is -1; it must be"):
            http_fields(plan, -1, throttled)
        with self.assertRaisesRegex(ValueError, "^period is 4294967296; it must be"):
            http_fields(plan._replace(period=2**32), 500, throttled)

    def test_who_still_owes_is_not_served_under_another_plan(self):
        for engine in ENGINES:
            table = engine(slots=2)
            self.assertEqual(table.acquire(THREE, 1000, 7, 0, 2), Answer(ADMITTED, 7, 0, 1667, 0))
            before = stored(table)
            for moment in [1000, 1666]:
                for plan in [1, 2]:
                    refused = table.acquire(THREE, moment, 7, plan, 1)
                    self.assertEqual(refused, Answer(OTHER_PLAN, 7, 0, 0, 0))
                    self.assertTrue(may_retry(refused.number))
                    self.assertEqual(table.peek(THREE, moment, 7, plan), Report(OTHER_PLAN, 7, 0, 0))
            self.assertEqual(table.peek(THREE, 1666, 7, 0), Report(None, 7, 1, 1667))
            self.assertEqual(stored(table), before)
            self.assertEqual(table.peek(THREE, 1667, 7, 1), Report(None, 7, 5, 1667))
            self.assertEqual(table.acquire(THREE, 1667, 7, 1, 5), Answer(ADMITTED, 7, 0, 2167, 0))
            self.assertEqual((list(table.ids), list(table.plan_numbers)), ([7, 0], [1, 0]))
            self.assertIsNone(table.clear())
            self.assertEqual(stored(table), stored(engine(slots=2)))

    def test_a_slot_is_free_by_its_own_plan(self):
        for engine in ENGINES:
            table = engine(slots=1)
            self.assertEqual(table.acquire(THREE, 1667, 8, 0, 1), Answer(ADMITTED, 8, 1, 2001, 0))
            self.assertEqual(table.acquire(THREE, 2000, 9, 1, 1), Answer(TABLE_FULL, 9, 0, 0, 0))
            self.assertEqual(table.acquire(THREE, 2001, 9, 1, 1), Answer(ADMITTED, 9, 4, 2101, 0))

    def test_numbers_of_plans_that_are_not_lent(self):
        for engine in ENGINES:
            table = engine(slots=1)
            for plan in [3, 256, 2**32 - 1]:
                self.assertEqual(table.acquire(THREE, 1000, 7, plan, 1), Answer(BAD_PLAN, 7, 0, 0, 0))
                self.assertEqual(table.peek(THREE, 1000, 7, plan), Report(BAD_PLAN, 7, 0, 0))
            table.ids[0], table.plan_numbers[0] = 7, 3
            self.assertEqual(table.acquire(THREE, 1000, 7, 0, 1), Answer(CORRUPT_RECORD, 7, 0, 0, 0))
            self.assertEqual(table.peek(THREE, 1000, 7, 0), Report(CORRUPT_RECORD, 7, 0, 0))
            self.assertEqual(table.acquire(THREE, 1000, 8, 0, 1), Answer(TABLE_FULL, 8, 0, 0, 0))

    def test_plans_are_checked_once(self):
        for count in [1, 16]:
            plans = Plans([PLAN] * count)
            self.assertEqual((len(plans), plans[count - 1]), (count, PLAN))
            self.assertEqual(list(plans._values), [3, 1000, 2] * count)
        for count in [0, 17]:
            with self.assertRaisesRegex(ValueError, f"^there are {count} plans; there must be 1 to 16$"):
                Plans([PLAN] * count)
        most = {"limit": 1_000_000, "period": 2_678_400_000, "burst": 1_000_000}
        Plans([Plan(1, 1, 1), Plan(**most)])
        for name in most:
            for wrong in [-1, 0, most[name] + 1, 2**32 + 1]:
                words = f"^{name} of plan 1 is {wrong}; it must be a whole number from 1 to {most[name]}$"
                with self.assertRaisesRegex(ValueError, words):
                    Plans([PLAN, PLAN._replace(**{name: wrong})])
        with self.assertRaises(TypeError):
            Plans([PLAN._replace(limit=1.5)])

    def test_bad_lists_get_1_from_the_archive(self):
        for length in range(55):
            lent = Plans([PLAN])
            lent._values = (c_uint32 * length)(*[1] * length)
            number = None if length in range(3, 49, 3) else BAD_PLAN
            for engine in ENGINES:
                self.assertEqual(engine(slots=1).peek(lent, 1000, 7, 0).refusal, number)

    def test_the_columns(self):
        gcra, bucket = Gcra(slots=2), TokenBucket(slots=2)
        for table in [gcra, bucket]:
            self.assertEqual(table.acquire(PLANS, 1000, 7, 0, 1), Answer(0, 7, 1, 1334, 0))
            self.assertEqual(table.peek(PLANS, 1000, 7, 0), Report(None, 7, 1, 1334))
        self.assertEqual(stored(gcra), [[7, 0], [0, 0], [4000, 0], 1000])
        self.assertEqual(stored(bucket), [[7, 0], [0, 0], [1000, 0], [1000, 0], 1000])
        again = Gcra(slots=2)
        again.ids[:], again.plan_numbers[:], again.tats[:], again.newest = stored(gcra)
        self.assertEqual(again.acquire(PLANS, 1000, 7, 0, 2), Answer(8, 7, 1, 1334, 334))
        self.assertEqual(again.acquire(PLANS, 999, 7, 0, 1).number, EARLY_MOMENT)


if __name__ == "__main__":
    unittest.main()
