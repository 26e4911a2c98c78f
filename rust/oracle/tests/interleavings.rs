//! Every order of tills, tried: random interleavings of redemptions through the C functions. What they leave is compared
//! with the accepted redemptions run whole on a plain table, in the order of their writes.

use oracle::{table, Random};
use plyorchard::{card_read, card_write, Refusal};

const SCHEDULES: usize = 10_000;

/// What a redemption makes of the number that it read.
#[derive(Clone, Copy, Debug)]
enum Change {
    Take(u64),
    Add(u64),
    Set(u64),
}

impl Change {
    fn next(self, number: u64) -> u64 {
        match self {
            Change::Take(amount) => number.saturating_sub(amount),
            Change::Add(amount) => number.saturating_add(amount),
            Change::Set(new) => new,
        }
    }
}

#[derive(Clone, Copy, Debug)]
struct Redemption {
    card: usize,
    mask: u64,
    change: Change,
}

/// A redemption that has read this number, and how many writes to its card were accepted since.
#[derive(Clone, Copy, Debug)]
struct Held {
    redemption: Redemption,
    number: u64,
    since: usize,
}

/// How often each thing happened that the schedules should try.
#[derive(Default, Debug)]
struct Tally {
    accepted: usize,
    accepted_though_others_wrote: usize,
    stale: usize,
    too_wide: usize,
    reads_refused: usize,
    reads_that_start_nothing: usize,
    never_written: usize,
}

impl Tally {
    fn least(&self) -> usize {
        let writes = self.accepted_though_others_wrote.min(self.stale);
        let reads = self.reads_refused.min(self.reads_that_start_nothing);
        writes.min(self.too_wide).min(reads).min(self.never_written)
    }
}

/// A table, the masks in use, and tills that each wait with what they read or are free.
struct Shop {
    table: Vec<u64>,
    masks: [u64; 3],
    tills: Vec<Option<Held>>,
    done: Vec<Held>,
}

impl Shop {
    /// A table of 0 to 3 cards, masks of few ones that share some, and 2 to 6 tills.
    fn open(random: &mut Random) -> Shop {
        let cards = random.pick(&[0, 1, 1, 1, 1, 2, 2, 3]);
        let table = (0..cards).map(|_| random.bits()).collect();
        let shared = random.bits() & random.bits() & random.bits() & random.bits();
        let mut mask = || shared & random.bits() | 1 << random.below(64);
        let masks = [mask(), mask(), shared | mask()];
        let tills = vec![None; 2 + random.below(5)];
        Shop {
            table,
            masks,
            tills,
            done: Vec::new(),
        }
    }

    /// A redemption of small numbers; now and then of a card or a mask that is not there.
    fn redemption(&self, random: &mut Random) -> Redemption {
        let amount = random.bits() % 4;
        let change = random.pick(&[
            Change::Take(amount),
            Change::Add(amount),
            Change::Set(amount),
        ]);
        let card = random.below(8 * self.table.len() + 1) / 8;
        let mask = random.pick(&self.masks);
        let mask = if random.below(16) == 0 { 0 } else { mask };
        Redemption { card, mask, change }
    }

    /// A free till reads; the read starts a redemption, unless it is refused or only looks.
    fn read(&mut self, till: usize, random: &mut Random, tally: &mut Tally) {
        let redemption = self.redemption(random);
        let Ok(number) = card_read(&self.table, redemption.card, redemption.mask) else {
            tally.reads_refused += 1;
            return;
        };
        if random.below(4) == 0 {
            tally.reads_that_start_nothing += 1;
            return;
        }
        self.tills[till] = Some(Held {
            redemption,
            number,
            since: 0,
        });
    }

    /// A till that waits writes, expecting the number that it read.
    fn write(&mut self, held: Held, tally: &mut Tally) {
        let Redemption { card, mask, change } = held.redemption;
        let before = self.table.clone();
        match card_write(
            &mut self.table,
            card,
            mask,
            held.number,
            change.next(held.number),
        ) {
            Ok(()) => {
                tally.accepted += 1;
                tally.accepted_though_others_wrote += usize::from(held.since > 0);
                let waiting = self.tills.iter_mut().flatten();
                waiting
                    .filter(|other| other.redemption.card == card)
                    .for_each(|other| other.since += 1);
                self.done.push(held);
            }
            Err(refusal) => {
                assert_eq!(before, self.table, "a refused write changed the table");
                match refusal {
                    Refusal::Differs => tally.stale += 1,
                    Refusal::TooWide => tally.too_wide += 1,
                    other => panic!("a write after a read got {other}"),
                }
            }
        }
    }

    /// One call of one till.
    fn step(&mut self, random: &mut Random, tally: &mut Tally) {
        let till = random.below(self.tills.len());
        match self.tills[till].take() {
            None => self.read(till, random, tally),
            Some(_) if random.below(8) == 0 => tally.never_written += 1,
            Some(held) => self.write(held, tally),
        }
    }
}

/// The accepted redemptions, run whole on a plain table: each reads the number that it read and is accepted.
fn run_whole(mut words: Vec<u64>, done: &[Held]) -> Vec<u64> {
    for held in done {
        let Redemption { card, mask, change } = held.redemption;
        let number = table::read(&words, card, mask);
        assert_eq!(number, Ok(held.number), "{held:?} reads another number");
        let new = change.next(held.number);
        let answer = table::write(&mut words, card, mask, held.number, new);
        assert_eq!(answer, Ok(()), "{held:?} is not accepted");
    }
    words
}

#[test]
fn interleaved_tills_leave_what_whole_redemptions_leave() {
    let mut random = Random::new(9);
    let mut tally = Tally::default();
    for schedule in 0..SCHEDULES {
        let mut shop = Shop::open(&mut random);
        let start = shop.table.clone();
        for _ in 0..10 + random.below(40) {
            shop.step(&mut random, &mut tally);
        }
        tally.never_written += shop.tills.iter().flatten().count();
        assert_eq!(
            shop.table,
            run_whole(start, &shop.done),
            "schedule {schedule}"
        );
    }
    println!("{SCHEDULES} schedules of 2 to 6 tills: {tally:?}");
    assert!(tally.least() > 1000, "the schedules try too little");
}
