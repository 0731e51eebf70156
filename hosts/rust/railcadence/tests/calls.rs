//! The calls through the wrapper: the worked example's lines, each reason, the reset, any columns, and a whole text.

use railcadence::{numbers, Answer, Gcra, Outcome, Plan, Plans, Reason, TokenBucket};

const INPUT: &str = include_str!("../../../../examples/worked.tsv");
const OUTPUT: &str = include_str!("../../../../examples/worked.out");

fn plans() -> Plans {
    Plans::new(&[Plan::new(3, 1000, 2)]).expect("good plans")
}

/// What one engine's acquire under plan 0 answers.
type Ask<'a> = &'a mut dyn FnMut(&Plans, u64, u32, u32) -> Answer;

/// The output for a text: its first line is the plan, which a table of one slot serves.
fn transcript(text: &str, ask: Ask) -> String {
    let mut output = String::from("outcome\tsubscriber\tleft\treset\twait\n");
    let mut lent = plans();
    for line in text.lines() {
        let fields: Vec<&str> = line.split('\t').collect();
        let small = |at: usize| fields[at].parse().expect("a number");
        if fields[0] == "plan" {
            let plan = Plan::new(small(2), small(3), small(4));
            lent = Plans::new(&[plan]).expect("a good plan");
            continue;
        }
        let moment = fields[1].parse().expect("a moment");
        let numbers = ask(&lent, moment, small(2), small(3)).to_numbers();
        output += &(numbers.map(|number| number.to_string()).join("\t") + "\n");
    }
    output
}

#[test]
fn both_engines_answer_the_worked_example() {
    let (mut gcra, mut bucket) = (Gcra::with_slots(1), TokenBucket::with_slots(1));
    let lines = transcript(INPUT, &mut |p, m, s, c| gcra.acquire(p, m, s, 0, c));
    assert_eq!(lines, OUTPUT);
    let lines = transcript(INPUT, &mut |p, m, s, c| bucket.acquire(p, m, s, 0, c));
    assert_eq!(lines, OUTPUT);
}

/// Asks (moment, subscriber, plan, cost) and outcomes on a table of one slot that subscriber 7 has filled up at moment 1000.
const ASKS: [(u64, u32, u32, u32, Outcome); 9] = [
    (1 << 42, 0, 1, 0, Outcome::Refused(Reason::BadPlan)),
    (1 << 42, 0, 0, 0, Outcome::Refused(Reason::LateMoment)),
    (999, 0, 0, 0, Outcome::Refused(Reason::EarlyMoment)),
    (999, 7, 0, 1, Outcome::Refused(Reason::EarlyMoment)),
    (1000, 0, 0, 0, Outcome::Refused(Reason::NoSubscriber)),
    (1000, 7, 0, 0, Outcome::Refused(Reason::ZeroCost)),
    (1000, 7, 0, 3, Outcome::Refused(Reason::CostAboveBurst)),
    (
        1000,
        7,
        0,
        1,
        Outcome::Throttled {
            left: 0,
            reset: 1667,
            wait: 334,
        },
    ),
    (1000, 8, 0, 1, Outcome::Refused(Reason::TableFull)),
];

#[test]
fn whatever_is_not_admitted_changes_nothing() {
    let (mut gcra, mut bucket) = (Gcra::with_slots(1), TokenBucket::with_slots(1));
    let plans = plans();
    assert!(gcra.acquire(&plans, 1000, 7, 0, 2).is_admitted());
    assert!(bucket.acquire(&plans, 1000, 7, 0, 2).is_admitted());
    let before = (gcra.clone(), bucket.clone());
    for (moment, subscriber, plan, cost, outcome) in ASKS {
        let answer = Answer {
            subscriber,
            outcome,
        };
        let asked = gcra.acquire(&plans, moment, subscriber, plan, cost);
        assert_eq!(asked, answer);
        let asked = bucket.acquire(&plans, moment, subscriber, plan, cost);
        assert_eq!(asked, answer);
    }
    assert_eq!((gcra, bucket), before);
}

/// The least that cannot be: one tick more than the burst is owed at 1000, or the last admission was at 1001.
#[test]
fn a_damaged_record_is_refused() {
    let (plans, refused) = (plans(), Outcome::Refused(Reason::CorruptRecord));
    let mut gcra = Gcra::from_columns(vec![7], vec![0], vec![5001], 0);
    assert_eq!(gcra.acquire(&plans, 1000, 7, 0, 1).outcome, refused);
    let seen = gcra.peek(&plans, 1000, 7, 0).balance;
    assert_eq!(seen, Err(Reason::CorruptRecord));
    for (level, last) in [(2001, 1000), (0, 1001)] {
        let mut bucket = TokenBucket::from_columns(vec![7], vec![0], vec![level], vec![last], 0);
        assert_eq!(bucket.acquire(&plans, 1000, 7, 0, 1).outcome, refused);
        let seen = bucket.peek(&plans, 1000, 7, 0).balance;
        assert_eq!(seen, Err(Reason::CorruptRecord));
    }
}

/// Both engines owe 2000 ticks at 1000, which drain by 3 a millisecond: 2 are left at 1666, and none at 1667.
#[test]
fn the_whole_burst_is_there_at_the_reset() {
    let (mut gcra, mut bucket) = (Gcra::with_slots(1), TokenBucket::with_slots(1));
    let asks: [Ask; 2] = [
        &mut |p, m, s, c| gcra.acquire(p, m, s, 0, c),
        &mut |p, m, s, c| bucket.acquire(p, m, s, 0, c),
    ];
    let plans = plans();
    for ask in asks {
        let (left, reset) = (0, 1667);
        let spent = ask(&plans, 1000, 7, 2).outcome;
        assert_eq!(spent, Outcome::Admitted { left, reset });
        let (left, wait) = (1, 1);
        let early = ask(&plans, 1666, 7, 2).outcome;
        assert_eq!(early, Outcome::Throttled { left, reset, wait });
        assert!(ask(&plans, 1667, 7, 2).is_admitted());
    }
}

/// GCRA's part of the test below.
fn gcra_refuses(ids: usize, plan_numbers: usize, records: usize) {
    let (plans, refused) = (plans(), Outcome::Refused(Reason::BadTable));
    let columns = (vec![7; ids], vec![5; plan_numbers], vec![5; records], 5);
    let (ids, plan_numbers, tats, newest) = columns.clone();
    let mut gcra = Gcra::from_columns(ids, plan_numbers, tats, newest);
    assert_eq!(gcra.acquire(&plans, 0, 7, 0, 1).outcome, refused);
    let seen = gcra.peek(&plans, 0, 7, 0).balance;
    assert_eq!(seen, Err(Reason::BadTable));
    assert_eq!(gcra.clear(), Err(Reason::BadTable));
    assert_eq!(gcra.into_columns(), columns);
}

/// The token bucket's.
fn bucket_refuses(ids: usize, plan_numbers: usize, records: usize) {
    let (plans, refused) = (plans(), Outcome::Refused(Reason::BadTable));
    let lasts = vec![5; records];
    let columns = (
        vec![7; ids],
        vec![5; plan_numbers],
        vec![5; records],
        lasts,
        5,
    );
    let (ids, plan_numbers, levels, lasts, newest) = columns.clone();
    let mut bucket = TokenBucket::from_columns(ids, plan_numbers, levels, lasts, newest);
    assert_eq!(bucket.acquire(&plans, 0, 7, 0, 1).outcome, refused);
    let seen = bucket.peek(&plans, 0, 7, 0).balance;
    assert_eq!(seen, Err(Reason::BadTable));
    assert_eq!(bucket.clear(), Err(Reason::BadTable));
    assert_eq!(bucket.into_columns(), columns);
}

#[test]
fn columns_of_other_lengths_are_refused() {
    let most = usize::from(u16::MAX);
    let small = [(1, 0, 0), (0, 1, 0), (0, 0, 1), (1, 0, 1), (1, 2, 1)];
    let large = [
        (most, most, most - 1),
        (most, most, most + 1),
        (most, most - 1, most),
        (most, most + 1, most),
        (most - 1, most, most),
    ];
    let equal = [0, most + 1, most + 2, 2 * most + 1].map(|slots| (slots, slots, slots));
    for (ids, plan_numbers, records) in small.into_iter().chain(large).chain(equal) {
        gcra_refuses(ids, plan_numbers, records);
        bucket_refuses(ids, plan_numbers, records);
    }
}

/// Everybody but the last owes the whole burst at 1000; the last owes nothing from then on. So a stranger gets the last slot, and
/// 999 is too early.
#[test]
fn the_last_of_65_535_slots_is_found() {
    let (plans, full) = (plans(), Outcome::Refused(Reason::TableFull));
    let ids: Vec<u32> = (1..=65_535).collect();
    let mut tats = vec![5000; 65_535];
    tats[65_534] = 3000;
    let mut gcra = Gcra::from_columns(ids.clone(), vec![0; 65_535], tats, 0);
    let mut levels = vec![0; 65_535];
    levels[65_534] = 1997; // 3 ticks a millisecond, and full with 2000
    let mut lasts = vec![1000; 65_535];
    lasts[65_534] = 999;
    let mut bucket = TokenBucket::from_columns(ids, vec![0; 65_535], levels, lasts, 0);
    let mut ask = |moment, subscriber, cost| {
        let answer = gcra.acquire(&plans, moment, subscriber, 0, cost);
        assert_eq!(bucket.acquire(&plans, moment, subscriber, 0, cost), answer);
        answer.outcome
    };
    assert_eq!(ask(999, 65_536, 2), full);
    let (left, reset) = (0, 1667);
    assert_eq!(ask(1000, 65_536, 2), Outcome::Admitted { left, reset });
    assert_eq!(ask(1000, 65_535, 1), full);
    assert_eq!((gcra.ids()[65_534], gcra.tats()[65_534]), (65_536, 5000));
    let written = (bucket.ids()[65_534], bucket.levels()[65_534]);
    assert_eq!((written, bucket.lasts()[65_534]), ((65_536, 0), 1000));
}

#[test]
fn a_clear_empties_damaged_columns() {
    let (most, plan_numbers) = (vec![u64::MAX; 3], vec![u8::MAX; 3]);
    let ids = vec![u32::MAX; 3];
    let mut gcra = Gcra::from_columns(ids.clone(), plan_numbers.clone(), most.clone(), u64::MAX);
    let mut bucket = TokenBucket::from_columns(ids, plan_numbers, most.clone(), most, u64::MAX);
    assert_eq!((gcra.clear(), bucket.clear()), (Ok(()), Ok(())));
    assert_eq!(gcra, Gcra::with_slots(3));
    assert_eq!(bucket, TokenBucket::with_slots(3));
    assert_eq!(
        (gcra.ids(), gcra.plan_numbers()),
        (&[0; 3][..], &[0; 3][..])
    );
    assert_eq!(gcra.tats(), [0; 3]);
}

/// A good first line makes the newest moment 0, whatever it was, and the asks then use it; a refused one leaves it.
#[test]
fn a_text_keeps_the_newest_moment() {
    let (mut ids, mut plan_numbers) = ([0; 1024], [9; 1024]);
    let (mut tats, mut newest) = ([0; 1024], u64::MAX);
    let (mut out, mut result) = ([0; 2000], [0; 2]);
    let refused = "plan\t0\t3\t1000\t2\nask\t3000\t7\t1\n";
    let answered = "outcome\tsubscriber\tleft\treset\twait\n2\t0\t0\t0\t0\n";
    for (text, output) in [(INPUT, OUTPUT), (refused, answered)] {
        numbers::transcribe(
            text.as_bytes(),
            &mut ids,
            &mut plan_numbers,
            &mut tats,
            &mut newest,
            &mut out,
            &mut result,
        );
        assert_eq!(result, [0, output.len() as u64]);
        assert_eq!(out[..output.len()], *output.as_bytes());
        assert_eq!((ids[0], plan_numbers[..2] == [0, 9]), (8, true));
        assert_eq!((tats[0], newest), (8000, 2000));
    }
}

#[test]
fn tables_may_be_sent_to_another_thread() {
    fn sent<T: Send>() {}
    sent::<Gcra>();
    sent::<TokenBucket>();
}
