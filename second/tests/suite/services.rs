//! The service machine and the labels, on histories with every drop.

use crate::hand::{busy_state, NEITHER, SYNC_1, SYNC_2};
use second::bits;
use second::numbers::Refusal;
use second::service::{Heard, Labels, Sync};
use second::superframe::State;

/// Bytes 5 and 6, which no rule looks at.
const FREE: [u8; 2] = [0xd5, 0x2a];
const SEPARATOR: [u8; 32] = [0; 32];

struct Machine(State);

impl Machine {
    fn fresh() -> Machine {
        Machine(State::fresh())
    }

    /// Position 1, nothing gathered.
    fn opened() -> Machine {
        let mut machine = Machine::fresh();
        machine.hear([9; 4], SYNC_1);
        machine
    }

    fn hear(&mut self, four: [u8; 4], sync: &str) -> Heard {
        let six = [&four[..], &FREE].concat().try_into().unwrap();
        let (heard, next) = self.0.take_service(&six, &bits::of_text(sync)).unwrap();
        assert_eq!(
            (next.now, next.after, &next.totals),
            (self.0.now, self.0.after, &self.0.totals),
            "factors and totals as given"
        );
        self.0 = next;
        heard
    }

    /// The positions from `first` to `last` of a group, `after` behind the last; no labels before it.
    fn part(&mut self, group: &[u8; 32], first: usize, last: usize, after: &str) -> Option<Labels> {
        for position in first..=last {
            let four = group[4 * position - 4..4 * position].try_into().unwrap();
            let sync = if position < last { SYNC_2 } else { after };
            let heard = self.hear(four, sync);
            assert_eq!(usize::from(heard.position), position);
            assert_eq!(heard.sync, Sync::read(&bits::of_text(sync)));
            if position == last {
                return heard.labels;
            }
            assert_eq!(heard.labels, None);
        }
        None
    }

    fn group(&mut self, group: &[u8; 32]) -> Option<Labels> {
        self.part(group, 1, 8, SYNC_1)
    }

    /// The separator and the groups of the first `count` characters; none brings labels.
    fn gather(&mut self, count: usize) {
        assert_eq!(self.group(&SEPARATOR), None);
        for character in 0..count {
            assert_eq!(self.group(&characters(character)), None);
        }
    }

    /// From position 1, searching: a separator and eight groups bring the labels.
    fn assert_works(&mut self) {
        self.gather(7);
        assert_eq!(self.group(&characters(7)), Some(labels()));
    }
}

/// The channel bytes of the group of one character, counted from 0; all different.
fn characters(character: usize) -> [u8; 32] {
    std::array::from_fn(|channel| (8 * channel + character) as u8)
}

/// Channel by channel, leftmost character first.
fn labels() -> Labels {
    std::array::from_fn(|channel| std::array::from_fn(|n| (8 * channel + n) as u8))
}

fn position(heard: Heard) -> u8 {
    heard.position
}

#[test]
fn positions_follow_the_syncs() {
    let mut machine = Machine::fresh();
    let syncs = [
        SYNC_1, SYNC_2, SYNC_2, SYNC_2, SYNC_2, SYNC_2, SYNC_2, SYNC_2, SYNC_1, SYNC_2, SYNC_1,
    ];
    let positions = syncs.map(|sync| position(machine.hear([1; 4], sync)));
    assert_eq!(positions, [0, 1, 2, 3, 4, 5, 6, 7, 8, 1, 2]);
    assert_eq!(machine.0.service.position, 1);
}

#[test]
fn labels_come_with_the_last_six_bytes() {
    let mut machine = Machine::opened();
    machine.assert_works();
    // Handed out once; the next group brings none, and the search is on again.
    assert_eq!(machine.group(&characters(0)), None);
    machine.assert_works();
    machine.assert_works();
}

/// Whatever sync follows the last six bytes, the labels come.
#[test]
fn labels_come_before_the_sync() {
    for (sync, next) in [(SYNC_1, 1), (SYNC_2, 0), (NEITHER, 0)] {
        let mut machine = Machine::opened();
        machine.gather(7);
        let came = machine.part(&characters(7), 1, 8, sync);
        assert_eq!(came, Some(labels()));
        let mut expected = State::fresh();
        expected.service.position = next;
        assert_eq!(machine.0, expected);
    }
}

/// A drop in the superframe that completes the separator: gathering starts and ends at once.
#[test]
fn separator_undone_by_its_own_sync() {
    for sync in [SYNC_2, NEITHER] {
        let mut machine = Machine::opened();
        machine.part(&SEPARATOR, 1, 8, sync);
        assert_eq!(machine.0, State::fresh());
        machine.hear([0; 4], SYNC_1);
        for character in 0..8 {
            assert_eq!(machine.group(&characters(character)), None);
        }
    }
}

/// Each of the 32 channel bytes has to be 0; bytes 5 and 6 are never 0 here.
#[test]
fn separator_is_all_zero() {
    for channel in 0..32 {
        let mut machine = Machine::opened();
        let mut group = SEPARATOR;
        group[channel] = 1;
        machine.group(&group);
        assert_eq!(machine.0.service.stage, 0, "channel {}", channel + 1);
        machine.group(&SEPARATOR);
        assert_eq!(machine.0.service.stage, 1);
    }
}

/// While gathering, a group of zeros is a group of characters.
#[test]
fn zero_characters() {
    let mut machine = Machine::opened();
    machine.gather(3);
    for _ in 3..7 {
        assert_eq!(machine.group(&SEPARATOR), None);
    }
    let came = machine.group(&SEPARATOR).unwrap();
    for (label, full) in came.iter().zip(labels()) {
        assert_eq!(label[..3], full[..3]);
        assert_eq!(label[3..], [0; 5]);
    }
    assert_eq!(
        machine.0.service.stage, 0,
        "the eighth is not a separator too"
    );
}

/// How a group may be dropped at a position, and where the machine then stands.
fn drop_at(machine: &mut Machine, at: usize, how: &str) {
    let group = characters(0);
    match how {
        "sync 1" => machine.part(&group, 1, at, SYNC_1),
        "sync 2 after 8" => machine.part(&group, 1, 8, SYNC_2),
        "neither" => machine.part(&group, 1, at, NEITHER),
        _ => {
            machine.part(&group, 1, at, SYNC_2);
            machine.0 = machine.0.lose().unwrap();
            None
        }
    };
    let next = if how == "sync 1" { 1 } else { 0 };
    assert_eq!(machine.0.service.position, next, "{how} at {at}");
    if next == 0 {
        machine.hear([0; 4], SYNC_1);
    }
}

/// Any drop after any number of characters returns to the search; the separator is needed again.
#[test]
fn every_drop_while_gathering() {
    for how in ["sync 1", "sync 2 after 8", "neither", "loss"] {
        for gathered in 0..8 {
            for at in [1, 4, 7] {
                let mut machine = Machine::opened();
                machine.gather(gathered);
                assert_eq!(machine.0.service.stage, gathered as u8 + 1);
                // After the eighth character's group a dropped Sync 2 comes too late.
                if how == "sync 2 after 8" && gathered == 7 {
                    continue;
                }
                drop_at(&mut machine, at, how);
                let mut expected = Machine::opened().0;
                expected.now = machine.0.now;
                expected.totals.lost = u32::from(how == "loss");
                assert_eq!(machine.0, expected, "{how} at {at} after {gathered}");
                for character in 0..8 {
                    assert_eq!(machine.group(&characters(character)), None);
                }
                machine.assert_works();
            }
        }
    }
}

/// A Sync 2 with no group open is dropped: no number, no position, and the labels are searched for anew.
#[test]
fn sync_2_with_no_group_open() {
    let mut machine = Machine::fresh();
    let heard = machine.hear([1; 4], SYNC_2);
    assert_eq!((heard.position, heard.sync), (0, Sync::Two));
    assert_eq!(machine.0, State::fresh());
    machine.0.service.stage = 4;
    machine.hear([1; 4], SYNC_2);
    assert_eq!(machine.0, State::fresh());
}

/// A Sync 1 with no group open is no drop, even where a state says that labels are under way.
#[test]
fn sync_1_with_no_group_open() {
    let mut machine = Machine::fresh();
    machine.0.service.stage = 2;
    machine.0.service.labels[31][0] = 77;
    let heard = machine.hear([1; 4], SYNC_1);
    assert_eq!(heard.position, 0);
    assert_eq!(machine.0.service.position, 1);
    assert_eq!(machine.0.service.stage, 2);
    assert_eq!(machine.0.service.labels[31][0], 77);
}

/// One wrong bit in any of 16 places of either sync is neither; the position of the six bytes stays.
#[test]
fn every_bit_of_the_sync_counts() {
    for sync in [SYNC_1, SYNC_2] {
        for place in 0..16 {
            let mut bits = bits::of_text(sync);
            bits[place] ^= 1;
            let state = busy_state();
            let (heard, next) = state.take_service(&[1; 6], &bits).unwrap();
            assert_eq!((heard.position, heard.sync), (5, Sync::Neither));
            assert_eq!(next.service, State::fresh().service);
        }
    }
}

/// The whole next state: the four bytes in their place, the rest as before, and 0 where nothing is carried.
#[test]
fn next_state() {
    let mut state = busy_state();
    let mut expected = state.clone();
    expected.service.position = 6;
    expected.service.group[16..20].copy_from_slice(&[1, 2, 3, 4]);
    state.service.group[20..].fill(200);
    for label in &mut state.service.labels {
        label[2..].fill(201);
    }
    let sync_2 = bits::of_text(SYNC_2);
    let (_, next) = state.take_service(&[1, 2, 3, 4, 5, 6], &sync_2).unwrap();
    assert_eq!(next, expected);
    let (_, next) = state
        .take_service(&[1, 2, 3, 4, 5, 6], &bits::of_text(SYNC_1))
        .unwrap();
    let mut expected = State::fresh();
    expected.service.position = 1;
    expected.now = state.now;
    expected.after = state.after;
    expected.totals = state.totals;
    assert_eq!(next, expected);
}

/// After the last position a Sync 1 goes on with the labels: one more character stands, the group is empty.
#[test]
fn next_state_after_a_group() {
    let mut state = busy_state();
    state.service.position = 8;
    for (n, byte) in state.service.group[..28].iter_mut().enumerate() {
        *byte = 100 + n as u8;
    }
    let (heard, next) = state
        .take_service(&[128, 129, 130, 131, 5, 6], &bits::of_text(SYNC_1))
        .unwrap();
    assert_eq!((heard.position, heard.labels), (8, None));
    let mut expected = state.clone();
    expected.service.position = 1;
    expected.service.stage = 4;
    expected.service.group = [0; 32];
    for (n, label) in expected.service.labels.iter_mut().enumerate() {
        label[2] = 100 + n as u8;
    }
    assert_eq!(next, expected);
}

/// But for the totals.
#[test]
fn two_losses_give_the_fresh_state() {
    let state = busy_state();
    let once = state.lose().unwrap();
    assert_eq!(once.now, state.after);
    assert_eq!(once.after, [8; 32]);
    assert_eq!(once.service, State::fresh().service);
    let mut twice = once.lose().unwrap();
    assert_eq!(twice.totals.lost, state.totals.lost + 2);
    twice.totals = State::fresh().totals;
    assert_eq!(twice, State::fresh());
    assert_eq!(
        busy_state()
            .lose()
            .unwrap()
            .reset()
            .unwrap()
            .lose()
            .unwrap()
            .reset(),
        Ok(twice)
    );
}

/// Each number of the state by itself: the last in range is taken, the first outside it refused.
#[test]
fn states_out_of_range() {
    let fields: [fn(&mut State) -> &mut u8; 4] = [
        |state| &mut state.now[31],
        |state| &mut state.after[0],
        |state| &mut state.service.position,
        |state| &mut state.service.stage,
    ];
    let sync = bits::of_text(SYNC_1);
    for field in fields {
        for n in 0..=255 {
            let mut state = State::fresh();
            *field(&mut state) = n;
            let good = n <= 8;
            assert_eq!(state.lose().is_ok(), good);
            assert_eq!(state.take_service(&[0; 6], &sync).is_ok(), good);
            if !good {
                assert_eq!(state.lose(), Err(Refusal::Range));
                // Before number 3 the state's 2; it stays as given.
                let given = state.clone();
                assert_eq!(state.take(2, &[0; 5120]), (Err(Refusal::Range), given));
                let given = state.clone();
                assert_eq!(state.take(2, &[0; 5119]), (Err(Refusal::Length), given));
            }
        }
    }
}
