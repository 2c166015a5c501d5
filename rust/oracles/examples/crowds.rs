//! Times full files whose accounts were chosen against the library's search for a repeated position, beside ordinary ones.
//!
//!   bash tools/build && cd rust && cargo run --release --example crowds
//!   cargo run --release --example crowds -- 2000
//!
//! The number is that of the rounds. All kinds take turns within each round, and each kind is timed twice: `again` is the same file in
//! each round, settled some times before the timed call; `new` is a file with other accounts of the kind, settled by the timed call alone.
//! Accounts are chosen against the first turn of the search. The places of the next ones go by a seed that all the accounts in its list make.

use citronreef::records::{Day, MAX_CORRECTIONS, MAX_MARKS, MAX_POSITIONS};
use citronreef::settle;
use oracles::days::day_of;
use oracles::random::Random;
use std::collections::HashSet;
use std::time::Instant;

const ROUNDS: usize = 600;

/// So often the same file is settled before it is timed, until a processor has learnt it.
const UNTIMED: usize = 8;

/// So many new files of a kind take turns: too many to be learnt.
const NEW_FILES: usize = 64;

/// The account and the mark of a position.
type Holding = (u32, u32);
type Make<'a> = Box<dyn Fn(&mut Random) -> Vec<Holding> + 'a>;

/// The library's multipliers of account and mark for a position's first place, in its first turn; for its second they are changed about.
const LOWER: u32 = 2_654_435_761;
const UPPER: u32 = 1_973_900_851;

/// The places of a full file. Each goes by the numbers that have it in their highest bits.
const PLACES: usize = 4 * MAX_POSITIONS;
const NUMBERS_OF_PLACE: u32 = 1 << 18;

/// The holding of a mark whose first place goes by a number. The multiplier is odd, so it has an inverse.
fn at_number(number: u32, mark: u32) -> Holding {
    const INVERSE: u32 = 244_002_641;
    assert_eq!(INVERSE.wrapping_mul(LOWER), 1);
    (number.wrapping_sub(mark.wrapping_mul(UPPER)).wrapping_mul(INVERSE), mark)
}

/// The number that its second place goes by.
fn second_number((account, mark): Holding) -> u32 {
    account.wrapping_mul(UPPER).wrapping_add(mark.wrapping_mul(LOWER))
}

/// A random number below a bound.
fn below(random: &mut Random, bound: u32) -> u32 {
    random.below(bound as usize) as u32
}

fn any_mark(random: &mut Random) -> u32 {
    random.below(MAX_MARKS) as u32
}

fn ordinary(random: &mut Random) -> Holding {
    (random.number() as u32, any_mark(random))
}

fn shuffle<T>(random: &mut Random, list: &mut [T]) {
    (1..list.len()).for_each(|last| list.swap(last, random.below(last + 1)));
}

/// The holdings of a full file. For each index one is drawn, anew where an earlier one is the same.
fn drawn(mut draw: impl FnMut(usize) -> Holding) -> Vec<Holding> {
    let mut seen = HashSet::with_capacity(MAX_POSITIONS);
    let mut new = |index| loop {
        let holding = draw(index);
        if seen.insert(holding) {
            return holding;
        }
    };
    (0..MAX_POSITIONS).map(&mut new).collect()
}

/// Few accounts that hold every mark, in no order.
fn every_mark(random: &mut Random) -> Vec<Holding> {
    let accounts: Vec<u32> = (0..MAX_POSITIONS / MAX_MARKS).map(|_| random.number() as u32).collect();
    let all_of = |account| (0..MAX_MARKS as u32).map(move |mark| (account, mark));
    let mut holdings: Vec<Holding> = accounts.into_iter().flat_map(all_of).collect();
    shuffle(random, &mut holdings);
    holdings
}

/// Both places are in the first 64th of all, with some of the marks.
fn both_in_64th(random: &mut Random, marks: usize) -> Vec<Holding> {
    const BOUND: u32 = 1 << 26;
    drawn(|_| loop {
        let holding = at_number(below(random, BOUND), random.below(marks) as u32);
        if second_number(holding) < BOUND {
            return holding;
        }
    })
}

/// All have one first place, and their second places are among so many. Which these places are is drawn too.
fn one_first_place(random: &mut Random, seconds: usize) -> Vec<Holding> {
    let first = random.below(PLACES) as u32 * NUMBERS_OF_PLACE;
    let mut is_second: Vec<bool> = (0..PLACES).map(|place| place < seconds).collect();
    shuffle(random, &mut is_second);
    drawn(|_| loop {
        let holding = at_number(first + below(random, NUMBERS_OF_PLACE), any_mark(random));
        if is_second[(second_number(holding) / NUMBERS_OF_PLACE) as usize] {
            return holding;
        }
    })
}

/// All holdings of which both places are among the first four.
fn crowd() -> Vec<Holding> {
    const BOUND: u32 = 4 * NUMBERS_OF_PLACE;
    let all_of = |mark| (0..BOUND).map(move |number| at_number(number, mark));
    let crowd: Vec<Holding> =
        (0..MAX_MARKS as u32).flat_map(all_of).filter(|&holding| second_number(holding) < BOUND).collect();
    assert!(crowd.len() > 8 * MAX_POSITIONS, "{} holdings are too few to make other files of", crowd.len());
    crowd
}

/// Holdings of which both places are among so many. Which these places are is drawn.
fn crowd_among(random: &mut Random, count: usize) -> Vec<Holding> {
    let mut is_among: Vec<bool> = (0..PLACES).map(|place| place < count).collect();
    shuffle(random, &mut is_among);
    let firsts: Vec<u32> = (0..PLACES as u32).filter(|&place| is_among[place as usize]).collect();
    let mut crowd = HashSet::new();
    while crowd.len() < MAX_POSITIONS + 1_024 {
        let number = random.pick(&firsts) * NUMBERS_OF_PLACE + below(random, NUMBERS_OF_PLACE);
        let holding = at_number(number, any_mark(random));
        if is_among[(second_number(holding) / NUMBERS_OF_PLACE) as usize] {
            crowd.insert(holding);
        }
    }
    let mut crowd: Vec<Holding> = crowd.into_iter().collect();
    shuffle(random, &mut crowd);
    crowd
}

/// Some are ordinary, and the others are of the crowd.
fn mixed<'a>(crowd: &'a [Holding], is_ordinary: impl Fn(usize) -> bool + 'a) -> Make<'a> {
    Box::new(move |random| drawn(|index| if is_ordinary(index) { ordinary(random) } else { random.pick(crowd) }))
}

/// What comes of a position in the first turn: it stays at its first place or at its second, or is left.
#[derive(Clone, Copy, PartialEq)]
enum Outcome {
    First,
    Second,
    Left,
}

/// The two places of a holding in the first turn.
fn places_of((account, mark): Holding) -> [usize; 2] {
    let place = |a: u32, b: u32| (account.wrapping_mul(a).wrapping_add(mark.wrapping_mul(b)) / NUMBERS_OF_PLACE) as usize;
    [place(LOWER, UPPER), place(UPPER, LOWER)]
}

/// The holdings of a full file, each with the outcome that is wanted for it.
fn planned(random: &mut Random, wanted: impl Fn(usize, &mut Random) -> Outcome) -> Vec<Holding> {
    let (mut is_taken, mut last) = (vec![false; PLACES], None);
    drawn(|index| {
        let outcome = match last {
            Some((same, outcome)) if same == index => outcome,
            _ => wanted(index, random),
        };
        last = Some((index, outcome));
        loop {
            let holding = ordinary(random);
            let [first, second] = places_of(holding);
            let (place, comes) = match (is_taken[first], is_taken[second]) {
                (false, _) => (first, Outcome::First),
                (true, false) => (second, Outcome::Second),
                (true, true) => (second, Outcome::Left),
            };
            if comes == outcome {
                is_taken[place] = true;
                return holding;
            }
        }
    })
}

/// In the first third it is a toss whether a position stays at its first place or at its second, so that no processor can guess it; of the
/// others so many tenths are left.
fn by_tosses(tenths: usize) -> Make<'static> {
    const SOME: usize = 200;
    Box::new(move |random| {
        planned(random, |index, random| match index {
            ..SOME => Outcome::First,
            SOME..1_366 => random.pick(&[Outcome::First, Outcome::Second]),
            _ if random.below(10) < tenths => Outcome::Left,
            _ => Outcome::First,
        })
    })
}

/// The kinds of files by what they are called, each with what makes the holdings of one.
fn kinds<'a>(crowd: &'a [Holding], wider: &'a [(usize, Vec<Holding>)]) -> Vec<(String, Make<'a>)> {
    let mut kinds: Vec<(String, Make)> = vec![
        ("without a plan".into(), Box::new(|random| drawn(|_| ordinary(random)))),
        ("one mark".into(), Box::new(|random| drawn(|_| (random.number() as u32, 0)))),
        ("16 accounts, all marks".into(), Box::new(every_mark)),
        ("one first place".into(), Box::new(|random| one_first_place(random, PLACES))),
        ("both in the first 64th".into(), Box::new(|random| both_in_64th(random, MAX_MARKS))),
        ("the same, one mark".into(), Box::new(|random| both_in_64th(random, 1))),
        ("both among four".into(), mixed(crowd, |_| false)),
    ];
    for start in [512, 1_024, 1_330, 1_366, 1_536, 2_048, 3_072] {
        kinds.push((format!("late, after {start}"), mixed(crowd, move |index| index < start)));
    }
    for (step, each) in [(2, "2nd"), (3, "3rd"), (4, "4th")] {
        kinds.push((format!("every {each} ordinary"), mixed(crowd, move |index| index % step == 0)));
    }
    for (count, crowd) in wider {
        kinds.push((format!("both among {count}"), mixed(crowd, |_| false)));
        kinds.push(("the first third of these".into(), mixed(crowd, |index| index >= 1_365)));
        kinds.push(("these late, after 1366".into(), mixed(crowd, |index| index < 1_366)));
    }
    for seconds in [64, 1_000, 3_000, 5_000, 7_000] {
        kinds.push((format!("one first, {seconds} second"), Box::new(move |random| one_first_place(random, seconds))));
    }
    for tenths in 3..=10 {
        kinds.push((format!("tosses, {tenths}/10 left"), by_tosses(tenths)));
    }
    kinds
}

/// A full day that the files of all kinds have in common, but for accounts and marks of the positions.
fn common_day(random: &mut Random) -> Day {
    let mut day = day_of(random, MAX_MARKS, MAX_CORRECTIONS, MAX_POSITIONS);
    for (index, correction) in day.corrections.iter_mut().enumerate() {
        correction.number = 7 * (MAX_CORRECTIONS - index) as u32;
    }
    day
}

fn file_of(day: &Day, holdings: &[Holding]) -> Vec<u8> {
    assert_eq!(holdings.len(), day.positions.len());
    let mut day = day.clone();
    for (position, &holding) in day.positions.iter_mut().zip(holdings) {
        (position.account, position.mark) = holding;
    }
    day.bytes()
}

/// The files of a kind, and its times in microseconds.
struct Kind {
    label: String,
    same: Vec<u8>,
    others: Vec<Vec<u8>>,
    again: Vec<f64>,
    new: Vec<f64>,
}

impl Kind {
    fn new(random: &mut Random, day: &Day, (label, make): (String, Make)) -> Kind {
        let mut file = || file_of(day, &make(random));
        let (same, others) = (file(), (0..NEW_FILES).map(|_| file()).collect());
        Kind { label, same, others, again: vec![], new: vec![] }
    }

    /// Every file is copied to the same bytes before it is settled. A new one follows another of its kind.
    fn time(&mut self, round: usize, file: &mut [u8], amounts: &mut [i64]) {
        file.copy_from_slice(&self.same);
        for _ in 0..UNTIMED {
            settle_time(file, amounts);
        }
        self.again.push(settle_time(file, amounts));
        file.copy_from_slice(&self.others[round % NEW_FILES]);
        self.new.push(settle_time(file, amounts));
    }

    /// Best and median, of both.
    fn columns(&mut self) -> [f64; 4] {
        self.again.sort_by(f64::total_cmp);
        self.new.sort_by(f64::total_cmp);
        let middle = self.again.len() / 2;
        [self.again[0], self.again[middle], self.new[0], self.new[middle]]
    }
}

/// How long it takes to settle a file that is accepted, in microseconds.
fn settle_time(file: &[u8], amounts: &mut [i64]) -> f64 {
    let start = Instant::now();
    let answer = settle(file, amounts);
    let time = start.elapsed().as_nanos() as f64 / 1_000.0;
    assert!(answer.is_ok());
    time
}

fn kinds_with_times(rounds: usize) -> Vec<Kind> {
    let mut random = Random::new(88_172_645_463_325_252);
    let (crowd, day) = (crowd(), common_day(&mut random));
    let wider: Vec<(usize, Vec<Holding>)> =
        [600, 1_500, 2_700, 4_000, 6_000].map(|count| (count, crowd_among(&mut random, count))).into();
    let mut kinds: Vec<Kind> = kinds(&crowd, &wider).into_iter().map(|kind| Kind::new(&mut random, &day, kind)).collect();
    let (mut file, mut amounts) = (day.bytes(), vec![0; MAX_POSITIONS]);
    for round in 0..rounds {
        kinds.iter_mut().for_each(|kind| kind.time(round, &mut file, &mut amounts));
    }
    kinds
}

const COLUMNS: [&str; 4] = ["again, best", "again, median", "new, best", "new, median"];

fn print_table(rows: &[(String, [f64; 4])]) {
    println!("{:>24}{}", "", COLUMNS.map(|column| format!("{column:>18}")).concat());
    for (label, times) in rows {
        let cell = |column: usize| format!("{:>10.1}{:>8.2}", times[column], times[column] / rows[0].1[column]);
        println!("{label:>24}{}", [0, 1, 2, 3].map(cell).concat());
    }
}

/// The kind that takes longest in a column, with its ratio.
fn worst(rows: &[(String, [f64; 4])], column: usize) -> String {
    let (label, times) = rows.iter().max_by(|a, b| a.1[column].total_cmp(&b.1[column])).expect("there are kinds");
    format!("{} \"{label}\" {:.2}", COLUMNS[column], times[column] / rows[0].1[column])
}

fn main() {
    let rounds = std::env::args().nth(1).map_or(ROUNDS, |rounds| rounds.parse().expect("a number of rounds"));
    assert!(rounds > 0, "there are no times without a round");
    println!("settle: {MAX_MARKS} marks, {MAX_CORRECTIONS} corrections, {MAX_POSITIONS} positions; {rounds} rounds, {NEW_FILES} new files");
    println!("microseconds for a file, and ratio to the first row\n");
    let rows: Vec<_> = kinds_with_times(rounds).into_iter().map(|mut kind| (kind.label.clone(), kind.columns())).collect();
    print_table(&rows);
    println!("\nworst: {}", [0, 1, 2, 3].map(|column| worst(&rows, column)).join("; "));
}
