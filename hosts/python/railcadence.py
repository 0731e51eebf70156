"""Railcadence from Python: a rate limiter in which every answer and every stored number is proved.

    plans = Plans([Plan(limit=3, period=1000, burst=2)])
    table = Gcra(slots=300)
    answer = table.acquire(plans, moment=1000, subscriber=7, plan=0, cost=1)

hosts/c/railcadence.h says what each argument is, its limits, and what an answer's numbers mean. What is outside its
limits is answered like anything else; only bad plans, and what does not fit the 32 or 64 bits of an argument, are a
ValueError.

A call holds Python's global lock, so threads may share a table. They should read the clock and call under a lock of their
own: a moment that was read before another thread's admission may be earlier than that, and is then refused.

The shared library is librailcadence.so in the folder that RAILCADENCE_LIB names, or else in the repository's build/.
"""

from __future__ import annotations

import operator
import os
from ctypes import POINTER, Array, PyDLL, c_size_t, c_uint8, c_uint16, c_uint32, c_uint64
from enum import IntEnum
from pathlib import Path
from typing import Any, Callable, ClassVar, Iterable, List, NamedTuple, Optional, Tuple, Union


class Number(IntEnum):
    """What came of a call. A number of further rules, which this module does not know, stays an int."""

    ADMITTED = 0
    BAD_PLAN = 1
    BAD_TABLE = 2
    LATE_MOMENT = 3
    NO_SUBSCRIBER = 4
    ZERO_COST = 5
    COST_ABOVE_BURST = 6
    CORRUPT_RECORD = 7
    THROTTLED = 8
    TABLE_FULL = 9
    EARLY_MOMENT = 11
    OTHER_PLAN = 12
    NOT_ON_CLOCK = 13


(ADMITTED, BAD_PLAN, BAD_TABLE, LATE_MOMENT, NO_SUBSCRIBER, ZERO_COST, COST_ABOVE_BURST, CORRUPT_RECORD, THROTTLED,
 TABLE_FULL, EARLY_MOMENT, OTHER_PLAN, NOT_ON_CLOCK) = Number


def may_retry(number: int) -> bool:
    """Whether the same request may simply be made again later: throttled, after the wait, the table was full, or the
    subscriber still owed under another plan. Under any other refusal that does not help: the caller is at fault and has
    something to mend first, or, under NOT_ON_CLOCK, no moment of this clock will admit the request."""
    return number in (THROTTLED, TABLE_FULL, OTHER_PLAN)


def _known(number: int) -> int:
    try:
        return Number(number)
    except ValueError:
        return number


def _refusal(number: int) -> Optional[int]:
    return None if number == 0 else _known(number)


class Plan(NamedTuple):
    """`limit` units per `period` milliseconds, and up to `burst` units at once."""

    limit: int
    period: int
    burst: int


class Answer(NamedTuple):
    """The answer to an acquire: what came of it, a `Number` if it is known; the subscriber asked for; units left; the first
    moment at which nothing is owed; and when throttled, the least number of milliseconds after which the same request is
    admitted, if nothing else is admitted meanwhile."""

    number: int
    subscriber: int
    left: int
    reset: int
    wait: int


class Report(NamedTuple):
    """The answer to a peek, which admits nothing, however much is left: None, or the number of the refusal; the subscriber
    asked for; units left; and the first moment at which nothing is owed."""

    refusal: Optional[int]
    subscriber: int
    left: int
    reset: int

    def to_numbers(self) -> Tuple[int, int, int, int, int]:
        """The five numbers of the C interface."""
        return self.refusal or 0, self.subscriber, self.left, self.reset, 0


class HttpFields(NamedTuple):
    """What an HTTP response says of an answer: RateLimit-Policy's q and w, RateLimit's r and t, and Retry-After. Times are
    whole seconds, rounded up; Retry-After is 0 unless throttled. Under NOT_ON_CLOCK there is no time to come back at: the
    status is the host's choice, such as 503, and goes without Retry-After."""

    quota: int
    window: int
    remaining: int
    reset: int
    retry_after: int


def _load() -> PyDLL:
    folder = os.environ.get("RAILCADENCE_LIB") or Path(__file__).resolve().parents[2] / "build"
    path = Path(folder) / "librailcadence.so"
    if not path.is_file():
        raise OSError(f"there is no {path}: README says how to make it, and RAILCADENCE_LIB names its folder")
    return PyDLL(str(path))  # unlike CDLL, it holds the global lock during a call


_library = _load()


def _function(name: str, *kinds: Any) -> Callable[..., None]:
    """A function of the library, with its arguments' types as the header has them."""
    function = getattr(_library, f"railcadence_{name}")
    function.argtypes, function.restype = kinds, None
    return function


def _fits(kind: Callable[[int], Any], **arguments: int) -> List[int]:
    """The arguments' values, each of which must fit: ctypes alone would cut it to its lowest bits."""
    most = kind(-1).value
    for name, value in arguments.items():
        if not 0 <= operator.index(value) <= most:
            raise ValueError(f"{name} is {value}; it must be a whole number from 0 to {most}")
    return [operator.index(value) for value in arguments.values()]


class Plans:
    """1 to 16 plans, all within their limits, that are lent to a call together: a ValueError says what is wrong. A request is
    made under one of them, which it names by its number: the first is 0.

    A slot keeps the number of the plan under which its subscriber was admitted last, and what is owed there is reckoned by
    that plan. Who still owes and asks under another gets OTHER_PLAN; who owes nothing may ask under any, and keeps its slot.
    Plans are told apart by their numbers, though their values be the same.

    So lend the same plans in every call on a table. Further ones may be added at their end; before one gets other values or
    another number, or is taken away, clear the table.
    """

    _MOST = 16
    _LIMITS: ClassVar[Plan] = Plan(limit=1_000_000, period=2_678_400_000, burst=1_000_000)

    def __init__(self, plans: Iterable[Plan]) -> None:
        self._plans = tuple(plans)
        if not 1 <= len(self._plans) <= self._MOST:
            raise ValueError(f"there are {len(self._plans)} plans; there must be 1 to {self._MOST}")
        values = [value for number, plan in enumerate(self._plans) for value in self._checked(number, plan)]
        self._values = (c_uint32 * len(values))(*values)

    @classmethod
    def _checked(cls, number: int, plan: Plan) -> List[int]:
        for name, value, most in zip(Plan._fields, plan, cls._LIMITS):
            if not 1 <= operator.index(value) <= most:
                raise ValueError(f"{name} of plan {number} is {value}; it must be a whole number from 1 to {most}")
        return [operator.index(value) for value in plan]

    def __len__(self) -> int:
        return len(self._plans)

    def __getitem__(self, number: int) -> Plan:
        """The plan with this number."""
        return self._plans[number]


_NUMBERS = POINTER(c_uint64)
_http_fields = _function("http_fields", c_uint32, c_uint32, c_uint32, c_uint64, _NUMBERS, _NUMBERS)


def http_fields(plan: Plan, moment: int, answer: Union[Answer, Report]) -> HttpFields:
    """What to tell a client of an answer or a report that the plan gave at the moment."""
    asked = _fits(c_uint32, **plan._asdict()) + _fits(c_uint64, moment=moment)
    numbers = answer.to_numbers() if isinstance(answer, Report) else answer
    out = (c_uint64 * 5)()
    _http_fields(*asked, (c_uint64 * 5)(*numbers), out)
    return HttpFields(*out)


class _Table:
    """The columns, `ids`, `plan_numbers` and those of the engine's record, the newest moment, and the engine's calls on
    them."""

    _records: ClassVar[Tuple[str, ...]]
    _acquire: ClassVar[Callable[..., None]]
    _peek: ClassVar[Callable[..., None]]
    _clear: ClassVar[Callable[..., None]]
    ids: Array[c_uint32]
    plan_numbers: Array[c_uint8]

    def __init__(self, slots: int) -> None:
        (slots,) = _fits(c_uint16, slots=slots)
        self.ids = (c_uint32 * slots)()
        self.plan_numbers = (c_uint8 * slots)()
        for record in self._records:
            setattr(self, record, (c_uint64 * slots)())
        self._newest = c_uint64(0)

    @property
    def newest(self) -> int:
        """The newest moment at which anything was admitted since the table was cleared; 0 if nothing was. An earlier one is
        refused. It is saved and loaded with the columns."""
        return self._newest.value

    @newest.setter
    def newest(self, newest: int) -> None:
        (self._newest.value,) = _fits(c_uint64, newest=newest)

    def acquire(self, plans: Plans, moment: int, subscriber: int, plan: int, cost: int) -> Answer:
        """Decides on a request for `cost` units under the plan with this number, and spends them if it is admitted."""
        asked = _fits(c_uint64, moment=moment) + _fits(c_uint32, subscriber=subscriber, plan=plan, cost=cost)
        number, *others = self._call(self._acquire, [plans._values], asked)
        return Answer(_known(number), *others)

    def peek(self, plans: Plans, moment: int, subscriber: int, plan: int) -> Report:
        """Reports what a subscriber has left under the plan with this number, and spends nothing."""
        asked = _fits(c_uint64, moment=moment) + _fits(c_uint32, subscriber=subscriber, plan=plan)
        number, who, left, reset, _ = self._call(self._peek, [plans._values], asked)
        return Report(_refusal(number), who, left, reset)

    def clear(self) -> Optional[int]:
        """Makes every column all zeros and the newest moment 0, and gives None; or gives the number of the refusal, which is
        BAD_TABLE, and changes nothing."""
        return _refusal(self._call(self._clear, [], [])[0])

    def _call(self, function: Callable[..., None], plans: List[Array[c_uint32]], asked: List[int]) -> List[int]:
        """The five numbers that a function of the library gives; a clear is lent no plans."""
        records = [getattr(self, record) for record in self._records]
        lent = [part for lend in [*plans, self.ids, self.plan_numbers, *records] for part in (lend, len(lend))]
        out = (c_uint64 * 5)()
        function(*lent, self._newest, *asked, out)
        return list(out)


_PLANS = _IDS = [POINTER(c_uint32), c_size_t]
_PLAN_NUMBERS = [POINTER(c_uint8), c_size_t]
_RECORD = [POINTER(c_uint64), c_size_t]
_GCRA = [*_IDS, *_PLAN_NUMBERS, *_RECORD, POINTER(c_uint64)]
_TOKEN_BUCKET = [*_IDS, *_PLAN_NUMBERS, *_RECORD, *_RECORD, POINTER(c_uint64)]
_ACQUIRED = [c_uint64, c_uint32, c_uint32, c_uint32, _NUMBERS]
_PEEKED = [c_uint64, c_uint32, c_uint32, _NUMBERS]


class Gcra(_Table):
    """A table of the GCRA engine: columns `ids`, `plan_numbers` and `tats`, and `newest`."""

    _records = ("tats",)
    _acquire = _function("gcra_acquire", *_PLANS, *_GCRA, *_ACQUIRED)
    _peek = _function("gcra_peek", *_PLANS, *_GCRA, *_PEEKED)
    _clear = _function("gcra_clear", *_GCRA, _NUMBERS)
    tats: Array[c_uint64]


class TokenBucket(_Table):
    """A table of the token bucket engine: columns `ids`, `plan_numbers`, `levels` and `lasts`, and `newest`."""

    _records = ("levels", "lasts")
    _acquire = _function("token_bucket_acquire", *_PLANS, *_TOKEN_BUCKET, *_ACQUIRED)
    _peek = _function("token_bucket_peek", *_PLANS, *_TOKEN_BUCKET, *_PEEKED)
    _clear = _function("token_bucket_clear", *_TOKEN_BUCKET, _NUMBERS)
    levels: Array[c_uint64]
    lasts: Array[c_uint64]
