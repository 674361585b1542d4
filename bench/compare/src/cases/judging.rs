//! Lawfulness, certifying, placing and headroom.

use std::fmt::{self, Display};

use crate::ffi::{self, Prices, Worth};
use crate::generate::{hostile, lawful, numbers, supplies};
use crate::guarded::Guarded;
use crate::mirror;
use crate::random::Random;
use crate::report::{Counts, Hex, Outcome, same};

/// The most idle slots of an image in which saves are placed every time; each
/// costs a trial.
const MANY_IDLE: usize = 150;

struct Judged {
    image: Guarded<u8>,
    prices: Prices,
    budget: u64,
    working: Guarded<Worth>,
}

impl Display for Judged {
    fn fmt(&self, f: &mut fmt::Formatter<'_>) -> fmt::Result {
        writeln!(f, "image: {}", Hex(self.image.list()))?;
        writeln!(f, "prices: {:?}", self.prices)?;
        writeln!(f, "budget: {}", self.budget)?;
        let working = self.working.list();
        write!(f, "working list: {} entries, {:?}", working.len(), working.first())
    }
}

/// What stands around a working list.
const GUARD: Worth = Worth { price: 0x5555, slot: 0x55 };

impl Judged {
    /// An image with a budget near what it or its placement costs.
    fn of(random: &mut Random, image: Vec<u8>) -> Judged {
        let prices = numbers::prices(random);
        let price = match random.below(2) {
            0 => least(&image, &prices),
            _ => least(&lawful::turned(&image), &prices),
        };
        let budget = numbers::budget(random, price);
        let before = 1 + random.index(9);
        let image = Guarded::new(&image, 0x85, before);
        let working = Guarded::new(&numbers::working(random), GUARD, 2);
        Judged { image, prices, budget, working }
    }
}

/// The least budget of an image, or a number where there is none.
fn least(image: &[u8], prices: &Prices) -> u64 {
    let mut working = [Worth::default(); 1024];
    match mirror::least_budget(image, prices, &mut working).budget {
        0 => 300,
        budget => budget,
    }
}

fn any_image(random: &mut Random, hostile: u64) -> Vec<u8> {
    if random.percent(hostile) {
        return hostile::hostile(random);
    }
    lawful::any_lawful(random)
}

pub fn lawful(random: &mut Random, counts: &mut Counts) -> Outcome {
    let image = any_image(random, 85);
    let library = ffi::lawful(&image);
    counts.refusal("lawful", library.refusal.number);
    same("yatesorrel_lawful", &library, &mirror::lawful(&image), &Hex(&image))
}

pub fn certify(random: &mut Random, counts: &mut Counts) -> Outcome {
    let image = any_image(random, 12);
    let given = Judged::of(random, image);
    let (mut working, mut twin_working) = (given.working.clone(), given.working.clone());
    let Judged { image, prices, budget, .. } = &given;
    let library = ffi::certify(image.list(), prices, *budget, working.list_mut());
    let twin = mirror::certify(image.list(), prices, *budget, twin_working.list_mut());
    counts.refusal("certify", library.refusal.number);
    same("yatesorrel_certify", &library, &twin, &given)?;
    same("yatesorrel_certify, working list", &working, &twin_working, &given)
}

pub fn place(random: &mut Random, counts: &mut Counts) -> Outcome {
    let image = match random.below(12) {
        0 => hostile::hostile(random),
        _ => lawful::any_idling(random),
    };
    let idle = idle_slots(&image);
    if idle > MANY_IDLE && !random.percent(10) {
        return Ok(());
    }
    let given = Judged::of(random, image);
    let (mut working, mut twin_working) = (given.working.clone(), given.working.clone());
    let (mut image, mut twin_image) = (given.image.clone(), given.image.clone());
    let Judged { prices, budget, .. } = &given;
    let library = ffi::place(image.list_mut(), prices, *budget, working.list_mut());
    let twin = mirror::place(twin_image.list_mut(), prices, *budget, twin_working.list_mut());
    match (library.refusal.number, library.carried.number) {
        (0, _) if image != given.image => counts.add("place", "accepted, saves placed"),
        (0, _) if idle > 0 => counts.add("place", "accepted, idle slots left"),
        (11, 9) => counts.add("place", "refused 11, carrying 9"),
        (11, 10) => counts.add("place", "refused 11, carrying 10"),
        (number, _) => counts.refusal("place", number),
    }
    same("yatesorrel_place", &library, &twin, &given)?;
    same("yatesorrel_place, image", &image, &twin_image, &given)?;
    same("yatesorrel_place, working list", &working, &twin_working, &given)
}

fn idle_slots(image: &[u8]) -> usize {
    image.as_chunks().0.iter().filter(|&slot| *slot == twin::image::IDLE_BYTES).count()
}

/// What a headroom call is given.
struct Aged<'g>(&'g Judged, [u32; 3]);

impl Display for Aged<'_> {
    fn fmt(&self, f: &mut fmt::Formatter<'_>) -> fmt::Result {
        write!(f, "{}\ntop, bottom, unit: {:?}", self.0, self.1)
    }
}

pub fn headroom(random: &mut Random, counts: &mut Counts) -> Outcome {
    let image = any_image(random, 15);
    let given = Judged::of(random, image);
    let (mut working, mut twin_working) = (given.working.clone(), given.working.clone());
    let Judged { image, prices, .. } = &given;
    let library = ffi::least_budget(image.list(), prices, working.list_mut());
    let twin = mirror::least_budget(image.list(), prices, twin_working.list_mut());
    counts.refusal("least budget", library.answer.refusal.number);
    same("yatesorrel_least_budget", &library, &twin, &given)?;
    same("yatesorrel_least_budget, working list", &working, &twin_working, &given)?;
    capacity(random, &given, library.budget.max(1), counts)
}

fn capacity(random: &mut Random, given: &Judged, budget: u64, counts: &mut Counts) -> Outcome {
    let voltages = match random.below(4) {
        0 => supplies::voltages(random),
        1 => supplies::voltages_of_the_largest(random, budget),
        2 => [2, 1, 1_000_000],
        _ => supplies::voltages_for(random, 400),
    };
    let (mut working, mut twin_working) = (given.working.clone(), given.working.clone());
    let Judged { image, prices, .. } = given;
    let library = ffi::least_capacity(image.list(), prices, voltages, working.list_mut());
    let twin = mirror::least_capacity(image.list(), prices, voltages, twin_working.list_mut());
    match (library.answer.refusal.number, library.microfarads) {
        (0, 0) => counts.add("least capacity", "none"),
        (0, 100_000) => counts.add("least capacity", "the largest"),
        (0, _) => counts.add("least capacity", "some"),
        (number, _) => counts.refusal("least capacity", number),
    }
    let input = Aged(given, voltages);
    same("yatesorrel_least_capacity", &library, &twin, &input)?;
    same("yatesorrel_least_capacity, working list", &working, &twin_working, &input)
}
