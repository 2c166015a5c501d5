//! Times the proved library against the same job in Rust: plain pair loops, and hash tables with nothing quadratic; and for making a
//! file, one that was made to take little time.
//!
//!   bash tools/build && (cd crates/sheet && rt run </dev/null)
//!   cd rust && cargo build --release --examples && cargo run --release --example bench

use citronreef::records::{u32_at, Day, MAX_CORRECTIONS, MAX_MARKS, MAX_POSITIONS, RECORD_SIZE};
use citronreef::{make, settle, tick_value, value, write_sheet, Refusal, Settled, FILE_SIZE, SHEET_SIZE};
use oracles::days::{day_of, day_of_products};
use oracles::products::{self, Product, PRICE_LIMIT, PRODUCTS};
use oracles::random::Random;
use oracles::sheet::sheet;
use oracles::{hashed, plain, quick};
use std::io::Write;
use std::path::Path;
use std::process::{Command, Stdio};
use std::time::Instant;

const RUNS: usize = 301;

type Settle = fn(&[u8], &mut [i64]) -> Result<Settled, Refusal>;
type Make = fn(&[u8], &[u8], &[u8], &mut [u8]) -> Result<usize, Refusal>;
type Value = fn([u8; 2], u32) -> Result<u64, Refusal>;
type Renew = fn(&mut Random, &mut [u8]);

/// The same value, of which the compiler knows nothing.
fn black_box<T>(value: T) -> T {
    // SAFETY: the value is read once more and the first copy is forgotten, so it is moved.
    unsafe {
        let read = std::ptr::read_volatile(&value);
        std::mem::forget(value);
        read
    }
}

/// How long a call takes, in nanoseconds.
fn time(call: impl FnOnce()) -> f64 {
    let start = Instant::now();
    call();
    start.elapsed().as_nanos() as f64
}

/// The medians of some times. Each run takes them in turn, so that all meet the same machine.
fn medians<const K: usize>(mut timed: impl FnMut(usize) -> f64) -> [f64; K] {
    let mut times: [Vec<f64>; K] = std::array::from_fn(|_| Vec::with_capacity(RUNS));
    for _ in 0..RUNS {
        times.iter_mut().enumerate().for_each(|(k, times)| times.push(timed(k)));
    }
    times.map(|mut times| {
        times.sort_by(f64::total_cmp);
        times[RUNS / 2]
    })
}

/// Gives each correction a number of its own, so that a pair loop finds no pair and has to look at all of them.
fn with_distinct_numbers(mut day: Day) -> Day {
    let count = day.corrections.len() as u32;
    for (i, correction) in day.corrections.iter_mut().enumerate() {
        correction.number = 7 * (count - i as u32);
    }
    day
}

/// The times of the three builds on a day, in microseconds: proved, plain, hashed. What is done to the file before each call is not
/// timed.
fn settle_times_after(day: &Day, mut before: impl FnMut(&mut [u8])) -> [f64; 3] {
    let mut file = day.bytes();
    let mut amounts = vec![0; MAX_POSITIONS];
    let builds: [Settle; 3] = [settle, plain::settle, hashed::settle];
    let nanoseconds = medians(|k| {
        before(&mut file);
        time(|| {
            let answer = builds[k](black_box(&file), black_box(&mut amounts));
            assert!(answer.is_ok());
        })
    });
    nanoseconds.map(|time| time / 1_000.0)
}

fn settle_times(day: &Day) -> [f64; 3] {
    settle_times_after(day, |_| {})
}

fn print_settle_row(label: &str, [proved, plain, hashed]: [f64; 3]) {
    let (to_plain, to_hashed) = (proved / plain, proved / hashed);
    println!("{label:>21} {proved:>9.1} {plain:>9.1} {to_plain:>9.2} {hashed:>9.1} {to_hashed:>9.2}");
}

/// The library's multipliers of account and mark for a position's first place; for its second they are changed about.
/// The first is that of a correction's number too.
const LOWER: u32 = 2_654_435_761;
const UPPER: u32 = 1_973_900_851;

/// The number whose product with the first multiplier is this. The multiplier is odd, so it has an inverse.
fn of_product(product: u32) -> u32 {
    const INVERSE: u32 = 244_002_641;
    assert_eq!(INVERSE.wrapping_mul(LOWER), 1);
    product.wrapping_mul(INVERSE)
}

/// Gives the corrections numbers with these products.
fn with_products(mut day: Day, product: impl Fn(u32) -> u32) -> Day {
    for (index, correction) in day.corrections.iter_mut().enumerate() {
        correction.number = of_product(product(index as u32));
    }
    day
}

/// All corrections start at one root of the library's tree.
fn with_one_root(day: Day) -> Day {
    with_products(day, |index| index * 16_383 % 8_388_608)
}

/// All start at one root and agree in the first fourteen bits of their walks too, which leaves nine bits to tell 512 numbers apart.
fn with_long_walks(day: Day) -> Day {
    with_products(day, |index| index * 16_384)
}

fn with_equal_corrections(mut day: Day) -> Day {
    let first = day.corrections[0];
    day.corrections.fill(first);
    day
}

/// Gives the positions these accounts and marks.
fn with_holdings(mut day: Day, holding: impl Fn(u32) -> (u32, u32)) -> Day {
    for (index, position) in day.positions.iter_mut().enumerate() {
        (position.account, position.mark) = holding(index as u32);
    }
    day
}

/// The account that has, with a mark, the first place that goes by a number where the library sifts the positions.
fn account_at(number: u32, mark: u32) -> u32 {
    of_product(number.wrapping_sub(mark.wrapping_mul(UPPER)))
}

/// All positions have one first place, so that all but one go to their second.
fn with_one_place(day: Day) -> Day {
    with_holdings(day, |index| (account_at(index / 256 << 12, index % 256), index % 256))
}

/// The first 64th of the places goes by numbers below this.
const CROWD: u32 = 1 << 26;

/// These numbers in no order, each once. With another start others come first.
fn crowd(start: u32) -> impl Iterator<Item = u32> {
    (0..CROWD).map(move |step| step.wrapping_mul(2_246_822_519).wrapping_add(start) % CROWD)
}

/// The next account that has, with a mark, both places among these.
fn crowded_account(numbers: &mut impl Iterator<Item = u32>, mark: u32) -> u32 {
    let second = |account: u32| account.wrapping_mul(UPPER).wrapping_add(mark.wrapping_mul(LOWER));
    let mut accounts = numbers.map(|number| account_at(number, mark));
    accounts.find(|&account| second(account) < CROWD).expect("there are more numbers than positions need")
}

/// Both places of each position are in the first 64th, so that few positions stay, and all are sifted by other factors.
fn with_both_places(mut day: Day) -> Day {
    let mut numbers = crowd(0);
    for position in &mut day.positions {
        position.account = crowded_account(&mut numbers, position.mark);
    }
    day
}

/// A number without order for each number, another for another.
fn scattered(number: u32) -> u32 {
    let number = (number ^ (number >> 16)).wrapping_mul(0x85EB_CA6B);
    let number = (number ^ (number >> 13)).wrapping_mul(0xC2B2_AE35);
    number ^ (number >> 16)
}

/// Gives each position an account of its own, none of them foreseen.
fn renew_accounts(random: &mut Random, positions: &mut [u8]) {
    let first = random.number() as u32;
    for (index, record) in positions.chunks_exact_mut(RECORD_SIZE).enumerate() {
        let account = scattered(first.wrapping_add(index as u32));
        record[..4].copy_from_slice(&account.to_le_bytes());
    }
}

/// The same with both places of each position in the first 64th.
fn renew_crowded(random: &mut Random, positions: &mut [u8]) {
    let mut numbers = crowd(random.number() as u32);
    for record in positions.chunks_exact_mut(RECORD_SIZE) {
        let account = crowded_account(&mut numbers, u32_at(record, 4));
        record[..4].copy_from_slice(&account.to_le_bytes());
    }
}

/// The positions of a file.
fn positions_of(file: &mut [u8]) -> &mut [u8] {
    let start = u32_at(file, 20) as usize;
    &mut file[start..]
}

/// Days that are not like the others, of 4,096 positions but for the last three.
fn other_days(random: &mut Random) -> Vec<(&'static str, Day)> {
    let full = [MAX_MARKS, MAX_CORRECTIONS, MAX_POSITIONS];
    let of = |random: &mut Random, codes: &[[u8; 2]]| {
        let products: Vec<Product> = PRODUCTS.iter().filter(|product| codes.contains(&product.code)).copied().collect();
        with_distinct_numbers(day_of_products(random, &products, full))
    };
    let tiny = day_of(random, 1, 2, 2);
    vec![
        ("some resent", day_of_products(random, &PRODUCTS, full)),
        ("equal corrections", with_equal_corrections(day_of_products(random, &PRODUCTS, full))),
        ("one root", with_one_root(day_of_products(random, &PRODUCTS, full))),
        ("long walks", with_long_walks(day_of_products(random, &PRODUCTS, full))),
        ("bills only", of(random, &[*b"IR", *b"BB"])),
        ("longest bonds only", of(random, &[*b"XX"])),
        ("1 mark", with_distinct_numbers(day_of(random, 1, MAX_CORRECTIONS, MAX_POSITIONS))),
        ("1 mark, uncorrected", day_of(random, 1, 0, MAX_POSITIONS)),
        ("1 mark, in order", with_holdings(day_of(random, 1, 0, MAX_POSITIONS), |index| (index, 0))),
        (
            "256 marks an account",
            with_holdings(day_of_products(random, &PRODUCTS, full), |index| (index / 256, index % 256)),
        ),
        ("one place", with_one_place(day_of_products(random, &PRODUCTS, full))),
        ("both places", with_both_places(day_of_products(random, &PRODUCTS, full))),
        ("no positions", with_distinct_numbers(day_of(random, MAX_MARKS, MAX_CORRECTIONS, 0))),
        ("1 mark, no positions", Day { positions: vec![], ..tiny.clone() }),
        ("1 mark, 2 positions", tiny),
    ]
}

/// Full days of some marks that have other accounts in each call, so that no processor learns the places.
fn print_renewed(random: &mut Random) {
    let rows: [(&str, usize, Renew); 3] = [
        ("new accounts", MAX_MARKS, renew_accounts),
        ("1 mark, new accounts", 1, renew_accounts),
        ("new, both places", MAX_MARKS, renew_crowded),
    ];
    for (label, marks, renew) in rows {
        let day = with_distinct_numbers(day_of(random, marks, MAX_CORRECTIONS, MAX_POSITIONS));
        print_settle_row(label, settle_times_after(&day, |file| renew(random, positions_of(file))));
    }
}

fn print_settle() {
    println!("settle: {MAX_MARKS} marks, {MAX_CORRECTIONS} corrections, N positions; microseconds for a file, and ratios of times");
    println!("{:>21} {:>9} {:>9} {:>9} {:>9} {:>9}", "N", "proved", "plain", "ratio", "hashed", "ratio");
    let mut random = Random::new(2_463_534_242);
    let mut last = [0.0; 3];
    let mut growth = [0.0; 3];
    for positions in [256, 512, 1_024, 2_048, 4_096] {
        let times = settle_times(&with_distinct_numbers(day_of(&mut random, MAX_MARKS, MAX_CORRECTIONS, positions)));
        print_settle_row(&positions.to_string(), times);
        growth = std::array::from_fn(|i| times[i] / last[i]);
        last = times;
    }
    for (label, day) in other_days(&mut random) {
        print_settle_row(label, settle_times(&day));
    }
    print_renewed(&mut random);
    let [proved, plain, hashed] = growth;
    println!("growth from N = 2048 to 4096: proved {proved:.2}, plain {plain:.2}, hashed {hashed:.2} times\n");
}

/// The times of the four makers on a day's lists, in microseconds: proved, plain, hashed, quick. What is done to the positions before each
/// call is not timed.
fn make_times(day: &Day, mut before: impl FnMut(&mut [u8])) -> [f64; 4] {
    let [marks, corrections, mut positions] = day.lists();
    let mut out = vec![0; FILE_SIZE];
    let builds: [Make; 4] = [make, plain::make, hashed::make, quick::make];
    let nanoseconds = medians(|k| {
        before(&mut positions);
        time(|| {
            let answer = builds[k](black_box(&marks), black_box(&corrections), black_box(&positions), black_box(&mut out));
            assert!(answer.is_ok());
        })
    });
    nanoseconds.map(|time| time / 1_000.0)
}

fn print_make_row(label: &str, [proved, plain, hashed, quick]: [f64; 4]) {
    let [to_plain, to_hashed, to_quick] = [plain, hashed, quick].map(|other| proved / other);
    print!("{label:>21} {proved:>9.1} {plain:>9.1} {to_plain:>9.3} {hashed:>9.1} {to_hashed:>9.2}");
    println!(" {quick:>9.1} {to_quick:>9.2}");
}

fn print_make() {
    println!(
        "make: {MAX_MARKS} marks, {MAX_CORRECTIONS} corrections, N positions; microseconds for a file, and ratios of times"
    );
    let heads = ["proved", "plain", "ratio", "hashed", "ratio", "quick", "ratio"].map(|head| format!("{head:>9}"));
    println!("{:>21} {}", "N", heads.join(" "));
    let mut random = Random::new(521_288_629);
    for positions in [256, 512, 1_024, 2_048, 4_096] {
        let day = with_distinct_numbers(day_of(&mut random, MAX_MARKS, MAX_CORRECTIONS, positions));
        print_make_row(&positions.to_string(), make_times(&day, |_| {}));
    }
    let full = day_of(&mut random, MAX_MARKS, MAX_CORRECTIONS, MAX_POSITIONS);
    print_make_row("some resent", make_times(&full, |_| {}));
    print_make_row("new accounts", make_times(&full, |positions| renew_accounts(&mut random, positions)));
    println!();
}

/// The times of a call's two builds, over the prices of a product, in nanoseconds: proved, plain.
fn call_times(builds: [Value; 2], code: [u8; 2], prices: &[u32]) -> [f64; 2] {
    let pass = |k: usize| prices.iter().filter_map(|&price| builds[k](black_box(code), black_box(price)).ok()).sum::<u64>();
    let times = medians(|k| {
        time(|| {
            black_box(pass(k));
        })
    });
    times.map(|time| time / prices.len() as f64)
}

fn print_values() {
    println!("nanoseconds for one contract, over all prices within the limit and on the tick: value, and tick value");
    println!("{:>21} {:>9} {:>9} {:>9} {:>9} {:>9} {:>9}", "code", "proved", "plain", "ratio", "proved", "plain", "ratio");
    for product in &PRODUCTS {
        let prices: Vec<u32> = (0..=PRICE_LIMIT).step_by(product.tick as usize).collect();
        let [proved, plain] = call_times([value, products::value], product.code, &prices);
        let [tick, plain_tick] = call_times([tick_value, products::tick_value], product.code, &prices);
        let code = String::from_utf8_lossy(&product.code);
        let (ratio, tick_ratio) = (proved / plain, tick / plain_tick);
        println!("{code:>21} {proved:>9.1} {plain:>9.1} {ratio:>9.2} {tick:>9.1} {plain_tick:>9.1} {tick_ratio:>9.2}");
    }
}

/// The times of the sheet of a day in microseconds: proved, and in plain Rust.
fn sheet_times(day: &Day) -> [f64; 2] {
    let file = day.bytes();
    let mut amounts = vec![0; MAX_POSITIONS];
    let mut out = vec![0; SHEET_SIZE];
    let nanoseconds = medians(|k| {
        time(|| {
            let length = match k {
                0 => write_sheet(black_box(&file), &mut amounts, &mut out),
                _ => sheet(black_box(&file), &mut amounts).len(),
            };
            assert!(black_box(length) > 0);
        })
    });
    nanoseconds.map(|time| time / 1_000.0)
}

/// Runs a program on a file once, and waits until it has printed.
fn run(program: &Path, file: &[u8]) {
    let mut child = Command::new(program)
        .stdin(Stdio::piped())
        .stdout(Stdio::null())
        .spawn()
        .unwrap_or_else(|error| panic!("{}: {error}", program.display()));
    child.stdin.take().expect("a pipe").write_all(file).expect("the program reads its input");
    assert!(child.wait().expect("the program ends").success());
}

/// The times of both sheet programs as processes, in microseconds: proved, and in plain Rust.
fn process_times(day: &Day) -> [f64; 2] {
    let root = Path::new(env!("CARGO_MANIFEST_DIR")).ancestors().nth(2).expect("the crate stands in the repository");
    let programs = [root.join("crates/sheet/out/sheet"), root.join("target/rust/release/examples/sheet")];
    let file = day.bytes();
    medians(|k| time(|| run(&programs[k], &file))).map(|time| time / 1_000.0)
}

fn print_sheets() {
    println!("sheet: {MAX_MARKS} marks, {MAX_CORRECTIONS} corrections, N positions; microseconds for the text, and for the whole program");
    println!("{:>21} {:>9} {:>9} {:>9} {:>9} {:>9} {:>9}", "N", "proved", "plain", "ratio", "program", "plain", "ratio");
    let mut random = Random::new(362_436_069);
    for positions in [256, 1_024, 4_096] {
        let day = with_distinct_numbers(day_of(&mut random, MAX_MARKS, MAX_CORRECTIONS, positions));
        let [proved, plain] = sheet_times(&day);
        let [program, plain_program] = process_times(&day);
        let (to_plain, to_program) = (proved / plain, program / plain_program);
        println!("{positions:>21} {proved:>9.1} {plain:>9.1} {to_plain:>9.2} {program:>9.1} {plain_program:>9.1} {to_program:>9.2}");
    }
    println!();
}

fn main() {
    println!(
        "Each time is the median of {RUNS} runs in one process, in a release build (opt-level 3); the builds take turns."
    );
    println!("The amounts slice has {MAX_POSITIONS} places, a made file {FILE_SIZE} bytes; neither is cleared between runs. Rust's builds allocate their tables in each run.");
    println!(
        "Numbers of corrections are distinct, so that pair loops look at every pair, except where the row says other.\n"
    );
    print_settle();
    print_make();
    print_sheets();
    print_values();
}
