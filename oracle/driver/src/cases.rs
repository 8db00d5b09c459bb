//! The cases of SPECIFICATION 11 and the listing of 12, asked of the Rust, callers with serials of their
//! own, and pools of 16 slots. The expected values are typed in, those of the cases as the customers gave
//! them; nothing here is copied from what the driver prints.

use crate::calls::{List, Name};
use crate::classes::Tally;
use crate::generate::{self, Callers, Options};
use crate::judge::{Answer, Judge};
use crate::moves::Move;
use crate::pools::SLOT_COUNTS;
use crate::text;

/// Capacity 17, overflow 20, eight slices of 2 bytes taken.
const OCTET: &str = "pool 17 overflow 20
    r 2; c 2; t; r 2; c 2; t; r 2; c 2; t; r 2; c 2; t
    r 2; c 2; t; r 2; c 2; t; r 2; c 2; t; r 2; c 2; t\n";

/// A pool after the events of a text, and the answer to each.
struct Done {
    judge: Judge,
    answers: Vec<Answer>,
}

fn done(text: &str) -> Done {
    done_on(8, text)
}

/// The same on a pool of so many slots.
fn done_on(slots: usize, text: &str) -> Done {
    let lists = text::parse(text).expect("a good text");
    let judge = Judge::new(slots, lists[0].capacity, lists[0].overflow);
    let mut done = Done { judge, answers: Vec::new() };
    for event in &lists[0].events {
        done.answers.push(done.judge.apply(event));
    }
    done
}

/// The eight slices of Octet, then the events of a text.
fn octet(text: &str) -> Done {
    done(&format!("{OCTET}{text}"))
}

impl Done {
    fn last(&self) -> &Answer {
        self.answers.last().expect("an event")
    }

    fn mode(&self) -> char {
        self.judge.situation().record.mode.letter()
    }

    fn live(&self) -> u16 {
        self.judge.situation().record.live
    }

    /// Mode, start and count of mode changes after a last reserve that is done.
    fn placed(&self) -> (char, usize, u32) {
        assert_eq!(self.last().refusal, 0);
        (self.mode(), self.last().start, self.last().changes)
    }

    /// The refusals of the last `count` events.
    fn refusals(&self, count: usize) -> Vec<u8> {
        let from = self.answers.len() - count;
        self.answers[from..].iter().map(|answer| answer.refusal).collect()
    }
}

#[test]
fn slot_1_is_0x80_and_slot_8_is_0x01() {
    assert_eq!(octet("d 2; d 3; d 4; d 5; d 6; d 7; d 8").live(), 0x80);
    assert_eq!(octet("d 1; d 2; d 3; d 4; d 5; d 6; d 7").live(), 0x01);
}

#[test]
fn a_pool_of_no_bytes() {
    let (mode, start, _) = done("pool 0 overflow 4\nr 0").placed();
    assert_eq!((mode, start), ('B', 0));
    assert_eq!(done("pool 0 overflow 4\nr 0; r 1").placed().0, 'A');
    assert_eq!(done("pool 0 overflow 4\nr 0; r 1; r 0").placed().0, 'A');
}

#[test]
fn a_reserve_of_the_capacity_and_of_one_more() {
    assert_eq!(done("pool 16 overflow 20\nr 16").placed().0, 'B');
    assert_eq!(done("pool 16 overflow 20\nr 17").placed().0, 'A');
}

#[test]
fn a_commit_spends_the_reservation() {
    let done = done("pool 16 overflow 20\nr 6\nc 7; c 6; c 1; c 0");
    assert_eq!(done.refusals(4), [5, 0, 5, 0]);
}

#[test]
fn a_truncate_that_cuts_nothing_spends_the_reservation() {
    let done = done("pool 16 overflow 20\nr 6; c 6\nr 4; k 9; c 1");
    assert_eq!(done.refusals(3), [0, 0, 5]);
    assert_eq!(done.answers[3].len, 6);
}

#[test]
fn a_head_clear_with_an_exact_fit_and_one_more() {
    assert_eq!(octet("d 1; d 2\nr 4").placed(), ('F', 0, 1));
    assert_eq!(octet("d 1; d 2\nr 5").placed(), ('A', 0, 2));
}

#[test]
fn a_frame_moves_from_the_front_to_the_back() {
    let before = octet("d 1; d 2\nr 3; c 3; d 7; d 8");
    let after = octet("d 1; d 2\nr 3; c 3; d 7; d 8\nr 2");
    let frame_start = |done: &Done| done.judge.situation().record.frame_start;
    let (mode, start, _) = after.placed();
    assert_eq!((mode, start), ('B', 15));
    assert_eq!(frame_start(&after), frame_start(&before) + 12);
}

#[test]
fn the_same_with_one_more_goes_to_the_overflow() {
    let (mode, start, _) = octet("d 1; d 2\nr 3; c 3; d 7; d 8\nr 3").placed();
    assert_eq!((mode, start), ('A', 3));
}

#[test]
fn the_back_resumes_after_a_live_front_slot_and_stays_there() {
    let events = "d 1; d 2\nr 3; c 3; t; d 3; d 4; d 5; d 6; d 7; d 8\nr 2";
    let (mode, start, _) = octet(events).placed();
    assert_eq!((mode, start), ('B', 3));
    let after = octet(&format!("{events}; d 9; r 1"));
    assert_eq!(after.live(), 0);
    assert_eq!(after.placed().1, 3);
    assert_eq!(after.judge.situation().record.back_count, 0);
}

#[test]
fn the_overflow_keeps_what_a_take_leaves() {
    let abcde = "w r 0 61; w r 1 62; w r 2 63; w r 3 64; w r 4 65";
    let done = done(&format!("pool 0 overflow 8\nr 5; {abcde}; c 2; t\nr 4"));
    assert_eq!(done.judge.reservation(), b"cde\0");
}

#[test]
fn a_second_release_is_refused() {
    assert_eq!(done("pool 16 overflow 20\nr 6; c 6; t\nd 1; d 1").refusals(2), [0, 7]);
}

/// Capacity 16, overflow 20; callers 0 and 2 take two slices of 2 bytes each, by turns.
const TWO_CALLERS: &str = "pool 16 overflow 20
    r 2; w r 0 11; c 2; t; r 2; w r 0 21; c 2; t by 2
    r 2; w r 0 12; c 2; t; r 2; w r 0 22; c 2; t by 2\n";

#[test]
fn every_caller_has_serials_from_1() {
    let done = done(TWO_CALLERS);
    let names = done.judge.live_names();
    let names: Vec<(u8, u32)> = names.iter().map(|name| (name.caller, name.serial)).collect();
    assert_eq!(names, [(0, 1), (2, 1), (0, 2), (2, 2)]);
    assert_eq!((done.live(), done.judge.serials()), (0xf0, [2, 0, 2, 0]));
}

/// Slots 1 and 2 have serial 1: the bytes written and the slot freed are those of the caller named.
#[test]
fn one_serial_of_two_callers_names_two_slices() {
    let after = |text: &str| done(&format!("{TWO_CALLERS}{text}"));
    let bytes = |done: &Done| done.judge.slices().map(|(_, slice)| slice[0]).collect::<Vec<u8>>();
    assert_eq!(bytes(&after("w 1 0 a1; w 1 0 a2 by 2")), [0xa1, 0xa2, 0x12, 0x22]);
    assert_eq!(after("d 1 by 2").live(), 0xb0);
    let released = after("d 1 by 2; d 1 by 2; w 1 0 a2 by 2; d 1");
    assert_eq!((released.refusals(4), released.live()), (vec![0, 7, 0, 0], 0x30));
    assert_eq!(bytes(&released), [0x12, 0x22]);
}

#[test]
fn a_slice_is_not_released_by_another_caller() {
    let done = done(&format!("{TWO_CALLERS}d 1 by 1; d 1 by 3; d 1 by 4; d 1 by 255; d 2 by 1"));
    assert_eq!((done.refusals(5), done.live()), (vec![7; 5], 0xf0));
}

/// 12 for an empty frame, for one in the pool, and before 6. The refused take leaves the reservation.
#[test]
fn a_take_by_no_caller_is_refused() {
    let empty = done("pool 4 overflow 8\nr 2; t by 4; t by 255; c 2; t by 4; t by 3; d 1 by 3");
    assert_eq!(empty.refusals(6), [12, 12, 0, 12, 0, 0]);
    let copied = done("pool 4 overflow 8\nr 5; c 5; t 4; t 4 by 4; t 4 by 3; t 5 by 4; t 5 by 3");
    assert_eq!(copied.refusals(5), [6, 12, 6, 12, 0]);
}

/// Takes of others, of empty frames and out of the overflow, and refused takes give no serial.
#[test]
fn a_serial_depends_on_the_callers_own_pooled_takes() {
    let done = done(
        "pool 4 overflow 8\nt by 1; r 5; c 5; t 4 by 1; t by 1; r 1; c 1; t by 4; t by 1
         r 1; c 1; t; r 1; c 1; t by 3; r 1; c 1; t by 1",
    );
    assert_eq!(done.judge.serials(), [1, 2, 0, 1]);
    assert_eq!(done.judge.live_names().last(), Some(&Name { caller: 1, serial: 2 }));
}

/// The moves of the frame in the Rust's last reserve, of SPECIFICATION 11.22 to 11.25: kind, from,
/// length, to.
#[test]
fn a_frame_moves_and_is_copied_onto_itself() {
    let moves = |events: &str| {
        let done = octet(events);
        let tuple = |a: &Move| (a.kind, a.from, a.len, a.to);
        done.last().moves.iter().map(tuple).collect::<Vec<_>>()
    };
    let back = "d 3; d 4; d 5; d 6; d 7; d 8";
    let front = "d 1; d 2; r 3; c 3";
    assert_eq!(moves(&format!("{front}; {back}; r 2")), [('w', 0, 3, 0)]);
    assert_eq!(moves(&format!("{front}; t; r 1; c 1; {back}; r 2")), [('w', 3, 1, 3)]);
    assert_eq!(moves(&format!("{front}; {back}; r 15")), [('w', 0, 3, 0), ('o', 0, 3, 0)]);
    assert_eq!(moves(&format!("{front}; d 7; d 8; r 2")), [('w', 0, 3, 12)]);
}

/// The listing of SPECIFICATION 12, as it stands there; trace.rs asks the Rust for it. Its last
/// column is the move, not the changes.
pub const LISTING: &str = "\
pool 16 overflow 12
1 r 0 B 00 0 6 0
2 c 0 B 00 0 6 0
3 t 0 B 80 0 6 0
4 r 4 B 80 0 0 0
5 r 0 B 80 6 8 0
6 c 5 B 80 0 0 0
7 c 0 B 80 6 4 0
8 r 0 A 80 4 7 0
9 k 0 A 80 0 3 0
10 t 0 A 80 0 3 0
11 d 0 A 00 0 6 0
12 r 0 B 00 0 16 0
T 10 2 50 0
";

/// A pool of 16 slots, capacity 33 and an overflow of so many bytes, with so many slices of 2 bytes taken,
/// then the events of a text.
fn widened(overflow: usize, slices: usize, text: &str) -> Done {
    let taken = "r 2; c 2; t\n".repeat(slices);
    done_on(16, &format!("pool 33 overflow {overflow}\n{taken}{text}"))
}

/// A slice in each slot, and an overflow that holds every frame of the tests below.
fn sixteen(text: &str) -> Done {
    widened(40, 16, text)
}

/// Releases of caller 0's serials.
fn releases(serials: std::ops::RangeInclusive<usize>) -> String {
    serials.map(|serial| format!("d {serial}\n")).collect()
}

#[test]
fn slot_1_of_16_is_0x8000_and_slot_16_is_0x0001() {
    assert_eq!(sixteen("").live(), 0xffff);
    assert_eq!(sixteen(&releases(2..=16)).live(), 0x8000);
    assert_eq!(sixteen(&releases(1..=15)).live(), 0x0001);
}

#[test]
fn the_seventeenth_frame_goes_to_the_overflow() {
    assert_eq!(sixteen("r 1").placed(), ('A', 0, 1));
}

/// The first ten slots have 20 bytes.
#[test]
fn a_front_of_ten_slots() {
    let first = releases(1..=10);
    assert_eq!(sixteen(&format!("{first}r 20")).placed(), ('F', 0, 1));
    assert_eq!(sixteen(&format!("{first}r 21")).placed(), ('A', 0, 2));
}

/// Nine slices of 1 byte in a front of 20 bytes, of which the last eight or all are released: a frame that
/// does not fit after them goes after the one that is left, or to 0.
#[test]
fn a_front_drops_eight_slots_or_all_of_its_nine() {
    let nine = releases(1..=10) + &"r 1; c 1; t\n".repeat(9);
    let eight = sixteen(&format!("{nine}{}r 19", releases(18..=25)));
    assert_eq!((eight.placed(), eight.live()), (('F', 1, 0), 0x803f));
    let all = sixteen(&format!("{nine}{}r 20", releases(17..=25)));
    assert_eq!((all.placed(), all.live()), (('F', 0, 0), 0x003f));
}

#[test]
fn a_frame_moves_from_the_front_to_the_back_of_16() {
    let moved = sixteen("d 1; d 2; r 3; c 3; d 15; d 16; r 2");
    assert_eq!(moved.placed(), ('B', 31, 1));
    assert_eq!(moved.judge.situation().record.frame_start, 28);
    assert_eq!(sixteen("d 1; d 2; r 3; c 3; d 15; d 16; r 3").placed(), ('A', 3, 1));
}

/// The pools of SPECIFICATION 11.32 and 11.33 to 11.37, with eight and with sixteen slices taken, are the
/// records that crates/buffer_pool/specs/AnswerCases.antt begins with.
#[test]
fn the_records_of_the_cases_with_16_slots() {
    for (slices, live) in [(8, 0xff00), (16, 0xffff)] {
        let done = widened(20, slices, "");
        let record = done.judge.situation().record;
        let mut slots = [(0, 0); 16];
        (0..slices).for_each(|i| slots[i] = (2 * i, 2));
        assert_eq!((record.mode.letter(), record.live, record.slots), ('B', live, slots));
        assert_eq!((record.back_start, record.back_count, record.used), (0, slices, slices));
        assert_eq!((record.frame_start, record.frame_len), (2 * slices, 0));
        assert_eq!(done.judge.serials(), [slices as u32, 0, 0, 0]);
    }
}

/// SPECIFICATION 11.32 to 11.37.
#[test]
fn the_cases_with_16_slots() {
    let ninth = widened(20, 8, "r 2; c 2; t");
    assert_eq!((ninth.live(), ninth.judge.situation().record.slots[8]), (0xff80, (16, 2)));
    assert_eq!(ninth.judge.live_names()[8], Name { caller: 0, serial: 9 });
    let sixteen = |text: &str| widened(20, 16, text);
    let nine = releases(1..=9);
    assert_eq!(sixteen("r 1").placed(), ('A', 0, 1));
    assert_eq!(sixteen(&format!("{nine}r 18")).placed(), ('F', 0, 1));
    assert_eq!(sixteen(&format!("{nine}r 19")).placed(), ('A', 0, 2));
    assert_eq!(sixteen("d 1; d 2; d 15; d 16; r 3").placed(), ('B', 28, 0));
    assert_eq!(sixteen("d 16; d 16").refusals(2), [0, 7]);
}

/// So many short lists from a seed, for pools with so many slots.
fn options(slots: usize, seed: u64, count: u64, callers: Callers) -> Options {
    let (capacity, events) = (5 * slots as u32, 15 * slots as u64);
    Options { slots, seed, count, capacity, events, callers, cover: 0 }
}

/// Lists from a seed in the unoptimised build: no sum wraps, nothing panics, and every event is of
/// a known class.
#[test]
fn generated_lists_reach_known_classes_only() {
    for slots in SLOT_COUNTS {
        let mut tally = Tally::new(slots);
        for list in generate::lists(&options(slots, 2, 600, Callers::All)) {
            tally.add_list(&list);
        }
        assert_eq!(tally.unknown(), 0);
    }
}

#[test]
fn lists_of_the_first_caller_name_no_other() {
    let lists = generate::lists(&options(8, 3, 100, Callers::First));
    assert!(lists.iter().flat_map(|list| &list.events).all(|event| event.caller() == 0));
}

/// A copy made by doing everything again shows what the pool shows, and answers as it does.
#[test]
fn a_pool_made_again_is_the_same() {
    for slots in SLOT_COUNTS {
        for list in generate::lists(&options(slots, 5, 20, Callers::All)) {
            made_again(slots, &list);
        }
    }
}

fn made_again(slots: usize, list: &List) {
    let mut judge = Judge::new(slots, list.capacity, list.overflow);
    for event in &list.events {
        let mut again = judge.again();
        assert_eq!(again.apply(event), judge.apply(event));
        assert_eq!(again.situation().record, judge.situation().record);
        assert_eq!((again.frame(), again.reservation()), (judge.frame(), judge.reservation()));
        assert_eq!(again.pool_bytes(), judge.pool_bytes());
        assert!(again.slices().eq(judge.slices()));
        assert_eq!(again.live_names(), judge.live_names());
        assert_eq!(again.serials(), judge.serials());
    }
}
