//! Looks at states: what each side lists, and the smallest disagreement.

use crate::decode::{in_bytes, Listing};
use crate::shares::Shares;
use crate::slips::SLIPS;
use crate::{any, archive, flat, words};
use compare::rng::Rng;
use model::flat::{Flat, NUMBERS, PLACES, ROOM};

/// One state on which two listings differ, in words.
struct Wrong {
    size: usize,
    state: String,
    sides: (Said, Said),
}

/// Who lists, and what.
type Said = (&'static str, String);

#[derive(Default)]
pub struct Listings {
    shares: Shares,
    /// States that no history need reach, and the longest listing of one.
    any: u64,
    longest: usize,
    /// Compared with the original and with the proved listing.
    original: u64,
    proved: u64,
    wrong: u64,
    smallest: Option<Wrong>,
    /// States that were spoiled, and how many of them show each slip.
    judged: u64,
    caught: [u64; SLIPS.len()],
}

/// Of so many states one is spoiled, to see that it shows.
const JUDGED: u64 = 10;

const MODEL: &str = "the model";
const ORIGINAL: &str = "the original";
const FLAT: &str = "document 01 over the flat state";
const PROVED: &str = "the proved listing";

impl Listings {
    /// Compares at one state of the model's machine, with the original's listing if there is one.
    pub fn look(&mut self, rng: &mut Rng, machine: &model::Machine, original: Option<Listing>) {
        let mut flat = model::flat(machine, rng.index(16));
        if rng.chance(50) {
            any::fill_unused(rng, &mut flat);
        }
        let expected = model::listing(machine);
        self.shares.add(&flat, &expected);
        if let Some(original) = original {
            self.original += 1;
            self.compare(&flat, (ORIGINAL, &original), (MODEL, &expected));
        }
        let again = in_bytes(&flat, &flat::listing(&flat));
        self.compare(&flat, (MODEL, &expected), (FLAT, &again));
        if let Some(found) = archive::list_state(&flat.numbers, &flat.names) {
            self.proved += 1;
            self.compare(&flat, (MODEL, &expected), (PROVED, &in_bytes(&flat, &found)));
            if self.shares.states % JUDGED == 0 {
                self.judge(&flat, &expected);
            }
        }
    }

    /// Whether the state, spoiled on its way to the proved listing, gives another one.
    fn judge(&mut self, flat: &Flat, expected: &Listing) {
        self.judged += 1;
        for (caught, (_, spoil)) in self.caught.iter_mut().zip(SLIPS) {
            let mut other = flat.clone();
            spoil(&mut other);
            let found = archive::list_state(&other.numbers, &other.names).unwrap();
            // The names that the endpoints' places stand for are the unspoiled ones.
            *caught += u64::from(in_bytes(flat, &found) != *expected);
        }
    }

    /// Compares the proved listing with document 01's on any flat state, number by number.
    pub fn look_any(&mut self, rng: &mut Rng) {
        let mut flat = any::any(rng);
        let (mut numbers, mut bytes) = (NUMBERS, PLACES * ROOM);
        if rng.chance(20) {
            (numbers, bytes) = any::shorten(rng, &mut flat);
        }
        let expected = flat::listing(&flat);
        self.any += 1;
        self.longest = self.longest.max(expected.len());
        if let Some(found) = archive::list_state(&flat.numbers[..numbers], &flat.names[..bytes]) {
            self.proved += 1;
            self.differ(&flat, expected.len() + found.len(), expected != found, || {
                ((FLAT, words::numbered(&expected)), (PROVED, words::numbered(&found)))
            });
        }
    }

    fn compare(
        &mut self,
        flat: &Flat,
        expected: (&'static str, &Listing),
        found: (&'static str, &Listing),
    ) {
        let said = |side: (&'static str, &Listing)| (side.0, words::listing(side.1));
        let size = expected.1.len() + found.1.len();
        self.differ(flat, size, expected.1 != found.1, || (said(expected), said(found)));
    }

    /// Counts a disagreement and keeps the smallest in words.
    fn differ(&mut self, flat: &Flat, size: usize, differs: bool, said: impl Fn() -> (Said, Said)) {
        if !differs {
            return;
        }
        self.wrong += 1;
        if self.smallest.as_ref().is_none_or(|wrong| size < wrong.size) {
            let state = words::state(flat);
            self.smallest = Some(Wrong { size, state, sides: said() });
        }
    }

    pub fn states(&self) -> u64 {
        self.shares.states
    }

    /// Prints the figures; true if all listings agree and every slip shows.
    pub fn report(&self) -> bool {
        self.shares.print();
        println!("other states: {}, the longest listing {}", self.any, self.longest);
        println!(
            "compared with the original: {}; with the proved listing: {}",
            self.original, self.proved
        );
        if let Some(wrong) = &self.smallest {
            println!("--- the smallest disagreement\n{}", wrong.state);
            for (who, listing) in [&wrong.sides.0, &wrong.sides.1] {
                println!("{who} lists:\n{listing}");
            }
        }
        println!("disagreements: {}", self.wrong);
        let shown = self.report_slips();
        self.wrong == 0 && shown
    }

    /// True if every slip shows, or none could.
    fn report_slips(&self) -> bool {
        if !archive::THERE {
            return true;
        }
        println!(
            "slips on the way to the proved listing, and how many of {} states show each:",
            self.judged
        );
        for ((name, _), caught) in SLIPS.iter().zip(self.caught) {
            println!("{caught:8}  {name}");
        }
        self.caught.iter().all(|caught| *caught > 0)
    }
}
