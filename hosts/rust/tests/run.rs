//! Document 01, 'The run', of the second implementation itself: both tables and the book answer alike at every place, and have
//! the same newest moment, under several plans (document 02, Item 3), whether the moments rise or fall (Item 6), and at the end of
//! the clock (Item 13).

mod three;

use model::plan::LAST_MOMENT;
use three::Three;

const LAST: u64 = LAST_MOMENT as u64;

/// One more than the largest number that is answered.
const NUMBERS: usize = 14;

/// A random number below `end`, by Knuth's generator.
fn below(state: &mut u64, end: u64) -> u64 {
    *state = state
        .wrapping_mul(6_364_136_223_846_793_005)
        .wrapping_add(1_442_695_040_888_963_407);
    (*state >> 33) % end
}

/// So many plans, the first of which has this burst; the fifth is the first again under another number.
fn plans(count: usize, burst: u32) -> Vec<u32> {
    let first = [3, 1000, burst];
    let all = [first, [6, 1000, 4], [1, 500, 1], [7, 999, 5], first];
    all[..count].concat()
}

/// The clock's moment, or now and then one that falls: some way, to 0, or to where the newest moment is, just below it or just
/// above it.
fn read(random: &mut u64, clock: u64, newest: u64) -> u64 {
    match below(random, 24) {
        0 => clock.saturating_sub(below(random, 5000)),
        1 => 0,
        2 => newest.saturating_sub(1),
        3 => newest,
        4 => newest + 1,
        _ => clock,
    }
}

/// A subscriber's own plan, or now and then any, or one that is not lent.
fn choose(random: &mut u64, who: u32, count: u64) -> u32 {
    match below(random, 12) {
        0..=2 => below(random, count) as u32,
        3 => [count as u32, 255, 256, u32::MAX][below(random, 4) as usize],
        _ => who % count as u32,
    }
}

/// How often each number was answered in a run of 1000 calls, which begins at 0 or so that it comes to the end of the clock.
fn run(list: &[u32], slots: usize, longest_step: u64, seed: u64) -> [u32; NUMBERS] {
    let mut three = Three::new(list, slots);
    let (count, burst) = (list.len() as u64 / 3, list[2] as u64);
    let begin = [0, LAST - 400 * longest_step][seed as usize / 5 % 2];
    let (mut random, mut clock, mut counts) = (seed, begin, [0; NUMBERS]);
    for place in 0..1000 {
        clock = LAST.min(clock + below(&mut random, longest_step + 1));
        let moment = read(&mut random, clock, three.paced.newest);
        let who = below(&mut random, slots as u64 + 3) as u32;
        let plan = choose(&mut random, who, count);
        let cost = below(&mut random, burst + 2) as u32;
        let answers = match below(&mut random, 200) {
            0 => three.clear(),
            1..=25 => three.peek(moment, who, plan),
            _ => three.acquire(moment, who, plan, cost),
        };
        assert_eq!(answers, [answers[0]; 3], "seed {seed}, place {place}");
        let newest = three.newest();
        assert_eq!(newest, [newest[0]; 3], "seed {seed}, place {place}");
        counts[answers[0][0] as usize] += 1;
    }
    counts
}

#[test]
fn three_answers_are_equal() {
    let mut counts = [0; NUMBERS];
    for seed in 0..60 {
        let list = plans(1 + seed as usize % 5, 1 + seed % 4);
        let slots = 1 + seed as usize % 7;
        let step = [10, 100, 400, 1500, 1500, 400][seed as usize / 10];
        let part = run(&list, slots, step, seed as u64);
        let both = counts.iter_mut().zip(part);
        both.for_each(|(all, one)| *all += one);
    }
    for number in [0, 1, 4, 5, 6, 8, 9, 11, 12, 13] {
        assert!(counts[number] > 100, "number {number} is rare: {counts:?}");
    }
    assert_eq!((counts[2], counts[7]), (0, 0));
}

/// Whatever plan is asked for; a clear is lent no plans.
#[test]
fn a_bad_list_stops_every_call() {
    let good = [3, 1000, 2];
    for list in [
        vec![],
        good.repeat(17),
        vec![3, 1000],
        [good, [3, 1000, 0]].concat(),
    ] {
        let mut three = Three::new(&list, 2);
        for plan in [0, 1, 16, u32::MAX] {
            let refused = [1, 7, 0, 0, 0];
            assert_eq!(three.acquire(1000, 7, plan, 1), [refused; 3], "{list:?}");
            assert_eq!(three.peek(1000, 7, plan), [refused; 3], "{list:?}");
        }
        assert_eq!(three.clear(), [[0; 5]; 3]);
        assert_eq!(three.newest(), [0; 3]);
    }
}
