//! The list of the deliberate faults.

use crate::engine::{Engine, NAMES};
use crate::tally;
use model::decision::Bucket;

pub const BOTH_AT_ONCE: &str = "both";
pub const EVERYWHERE: &str = "all";
pub const THE_BOOK: &str = tally::BOOK;
pub const IN_THE_END: &str = "ending";

/// Where a fault is tried: in each engine by itself, and both at once; in the token bucket, whose alone the refilled level and
/// the last moment are; in the book; in the fields for HTTP; in what a shop takes for the reset, or for the answer where a wait
/// ends; or in both engines, their models and the book, so that only a count of what cannot occur shows it, or the ceiling. What an
/// engine and its model, or both engines, do alike shows against the book alone. In the notes that a host keeps of each engine,
/// what leaves units out shows where a greedy shop must meet the ceiling.
const EACH: &[&str] = &NAMES;
const EACH_OR_BOTH: &[&str] = &[NAMES[0], NAMES[1], BOTH_AT_ONCE];
const EACH_OR_BOOK: &[&str] = &[NAMES[0], NAMES[1], THE_BOOK];
const EACH_OR_END: &[&str] = &[NAMES[0], NAMES[1], IN_THE_END];
const BUCKET: &[&str] = &[Bucket::NAME];
const BOOK: &[&str] = &[THE_BOOK];
const HTTP: &[&str] = &["http"];
const RESET: &[&str] = &["reset"];
const ALL: &[&str] = &[EVERYWHERE];

/// Each fault on a line: its name in the code and on the command line, where it is tried, and what it is in words.
macro_rules! faults {
    ($($fault:ident $name:literal $places:ident $words:literal)*) => {
        #[derive(Clone, Copy, PartialEq, Eq)]
        pub enum Fault {
            $($fault),*
        }

        pub const FAULTS: &[(Fault, &str, &[&str], &str)] =
            &[$((Fault::$fault, $name, $places, $words)),*];
    };
}

faults! {
    WaitShort       "wait-short"        EACH         "the wait under 8 is one too short"
    LeftMore        "left-more"         EACH         "acquire reports one unit too many left"
    ResetLate       "reset-late"        EACH         "acquire reports a reset one too late"
    ResetDown       "reset-down"        EACH         "acquire and peek report the reset rounded down"
    Nobody          "nobody"            EACH         "a refusal names subscriber 0"
    FullForCorrupt  "full-for-corrupt"  EACH         "number 9 in place of 7"
    DenialWrites    "denial-writes"     EACH         "the record is written under 8"
    DenialRefills   "denial-refills"    BUCKET       "the refilled level and the moment are written under 8"
    LastLate        "last-late"         BUCKET       "an admission writes a last moment one too late"
    Neighbour       "neighbour"         EACH         "an admission writes in the slot beside its own"
    ClearShort      "clear-short"       EACH         "a clear leaves the last slot"
    ClearEager      "clear-eager"       EACH         "a refused clear makes the newest moment 0"
    FreeStrict      "free-strict"       EACH         "9 where the lowest free slot is free with nothing to spare"
    SlotsShort      "slots-short"       EACH         "a table of the most slots gets 2"
    SlotsBeyond     "slots-beyond"      EACH         "a table of one slot more does not get 2"
    Unwritten       "unwritten"         EACH         "an admission writes nothing but the newest moment"
    PeekLeft        "peek-left"         EACH         "peek reports one unit too many left"
    PeekWrites      "peek-writes"       EACH         "a peek writes in the subscriber's slot"
    Outside         "outside"           EACH         "an admission writes beyond the end of the ids"
    Before          "before"            EACH         "an admission writes before the start of the record's last column"
    SixNumbers      "six-numbers"       EACH         "an answer has a sixth number"
    NewestUnwritten "newest-unwritten"  EACH         "an admission does not write the newest moment"
    NewestDenied    "newest-denied"     EACH         "the newest moment is written under 8"
    NewestOutside   "newest-outside"    EACH         "an admission writes beyond the newest moment"
    ClearNewest     "clear-newest"      EACH         "a clear leaves the newest moment"
    PeekNewest      "peek-newest"       EACH         "a peek writes the newest moment"
    PeekUnchecked   "peek-unchecked"    EACH         "peek does not give 11"
    EqualEarly      "equal-early"       EACH         "11 at the newest moment itself"
    EarlyLax        "early-lax"         EACH         "no 11 a millisecond below the newest moment"
    EarlyFirst      "early-first"       EACH         "11 before 3"
    EarlyLast       "early-last"        EACH         "11 after 4"
    BeyondIgnored   "beyond-ignored"    EACH         "a newest moment beyond the clock is taken as 0"
    EndlessClock    "endless-clock"     EACH_OR_BOOK "8 in place of 13, with a wait that ends beyond the clock"
    ClockShort      "clock-short"       EACH_OR_END  "13 where the wait ends at the clock's last moment"
    ClockLong       "clock-long"        EACH_OR_END  "8 where the wait ends a millisecond beyond the clock"
    OffClockWait    "off-clock-wait"    EACH         "a wait stands beside 13"
    OffClockWrites  "off-clock-writes"  EACH         "the record is written under 13"
    OffClockLate    "off-clock-late"    EACH         "3 in place of 13"
    FreeByAsked     "free-by-asked"     EACH         "whether a slot is free is judged by the plan asked for"
    UnknownFree     "unknown-free"      EACH         "another's slot with an unknown plan number is taken as free"
    EmptyUnknown    "empty-unknown"     EACH         "an empty slot with an unknown plan number is taken as unfree"
    UnknownOwner    "unknown-owner"     EACH         "an unknown plan number is taken as the one asked for, and not as 7"
    CorruptByAsked  "corrupt-by-asked"  EACH         "7 is judged by the plan asked for"
    OwingPassed     "owing-passed"      EACH_OR_BOOK "no 12: who owes under another plan is judged as having no record"
    PeekOwing       "peek-owing"        EACH         "a peek gives no 12"
    ChangeRefused   "change-refused"    EACH_OR_BOOK "12 under another plan though nothing is owed"
    OwingByAsked    "owing-by-asked"    EACH_OR_BOOK "12 goes by what would be owed under the plan asked for"
    OwingFirst      "owing-first"       EACH         "12 before 7"
    OwingBeforeCost "owing-before-cost" EACH         "12 before 6"
    OwingWrites     "owing-writes"      EACH         "the plan number is written under 12"
    ByValue         "by-value"          EACH         "plans of the same values are taken as the same plan"
    BurstKept       "burst-kept"        EACH         "6 is judged by the stored plan"
    RecordKept      "record-kept"       EACH         "a change of plan keeps the old record"
    SlotLeft        "slot-left"         EACH         "a change of plan takes the lowest free slot"
    NumberUnwritten "number-unwritten"  EACH         "an admission does not write the plan number"
    NumbersOutside  "numbers-outside"   EACH         "an admission writes beyond the end of the plan numbers"
    NumbersLength   "numbers-length"    EACH         "the length of the plan numbers is not checked"
    ClearNumbers    "clear-numbers"     EACH         "a clear leaves the plan numbers"
    BadBeside       "bad-beside"        EACH         "a bad plan that is not asked for is let through"
    Seventeen       "seventeen"         EACH         "17 plans are let through"
    ListCut         "list-cut"          EACH         "what is no whole plan at the end of the list is left out"
    NumberBeyond    "number-beyond"     EACH         "the first number that is not lent is taken as the last that is"
    NumberWrapped   "number-wrapped"    EACH         "only eight bits of the number asked for are read"
    PlansWritten    "plans-written"     EACH         "an admission writes in the plans"
    Nonsense        "nonsense"          EACH_OR_BOTH "acquire reports a reset one too late, and the model does too"
    NewestLate      "newest-late"       EACH_OR_BOTH "an admission writes a newest moment one too late, and the model does too"
    OwingSilent     "owing-silent"      EACH_OR_BOTH "a peek gets 0 in place of 12, and the model's too"
    Deaf            "deaf"              BOOK         "the book is not told of acquires of cost 1"
    ShortMemory     "short-memory"      BOOK         "the book sees only the last 100 admitted calls of a subscriber"
    OwnNewest       "own-newest"        BOOK         "the book takes the newest moment from the caller's admitted calls alone"
    ListKept        "list-kept"         BOOK         "the book begins no list anew when the plan changes"
    PeekOffClock    "peek-off-clock"    ALL          "a peek gets 13 where the reset is off the clock, by the models and the book too"
    CorruptForEarly "corrupt-for-early" ALL          "7 in place of 11, by the models and the book too"
    UnitAbove       "unit-above"        ALL          "one unit more than is left is admitted, by the models and the book too"
    CeilingLower    "ceiling-lower"     EACH         "the notes are held to a ceiling that is one unit lower"
    FirstUncounted  "first-uncounted"   EACH         "the first call of a stretch in the notes is not counted"
    LastUncounted   "last-uncounted"    EACH         "the last call of a stretch in the notes is not counted"
    OthersAdded     "others-added"      EACH         "the notes of all subscribers are added up"
    PlansAdded      "plans-added"       EACH         "the notes of a subscriber under all plans are added up"
    NotesKept       "notes-kept"        EACH         "the notes are kept over a clear"
    RetryDown       "retry-down"        HTTP         "Retry-After is rounded down"
    QuotaLimit      "quota-limit"       HTTP         "the quota is the limit"
    ResetMoment     "reset-moment"      HTTP         "the seconds until the reset are counted from moment 0"
    RefusalTold     "refusal-told"      HTTP         "what is left is told under every number"
    RetryOffClock   "retry-off-clock"   HTTP         "Retry-After is told under 13 as under 8"
    RetryEarly      "retry-early"       HTTP         "Retry-After is a second too short, and the model's too"
    ResetSoon       "reset-soon"        HTTP         "the seconds until the reset are one too few, and the model's too"
    ResetEarly      "reset-early"       RESET        "the reset is one too early, and the model's too"
}
