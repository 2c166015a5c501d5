//! `citronreef explain` of accepted days: amounts, subtotals, totals and resent corrections against the library's answers.

mod days;
mod process;

use citronreef::records::Day;
use citronreef::{mark, settle, Settled};
use days::{accepted, sample};
use oracles::random::Random;
use process::run;
use std::collections::{BTreeMap, HashMap, HashSet};

fn settled(day: &Day) -> (Settled, Vec<i64>) {
    let mut amounts = vec![0; day.positions.len()];
    let settled = settle(&day.bytes(), &mut amounts).expect("every check passes");
    (settled, amounts)
}

/// The cents of an amount such as -18498.40 or +1,000.00.
fn cents(text: &str) -> i64 {
    text.replace([',', '.', '+'], "").parse().expect("an amount")
}

/// The units of a price such as 95.01.
fn units(text: &str) -> u32 {
    let (whole, decimals) = text.split_once('.').expect("a point");
    format!("{whole}{decimals:0<4}").parse().expect("a price")
}

fn currency(code: [u8; 2]) -> &'static str {
    if code == *b"BB" {
        "NZD"
    } else {
        "AUD"
    }
}

#[test]
fn lines_for_a_spreadsheet_are_the_librarys_answers() {
    let mut random = Random::new(4_101_842_887);
    for _ in 0..1_000 {
        let day = accepted(&mut random);
        let (_, amounts) = settled(&day);
        let ran = run(&["explain", "--csv"], &day.bytes());
        assert_eq!((ran.status, ran.err.as_str()), (0, ""));
        let mut lines = ran.out.lines();
        assert_eq!(
            lines.next(),
            Some("account,contract,code,month,year,lots,previous,final,correction,change,amount,currency")
        );
        assert_eq!(lines.clone().count(), day.positions.len());
        for ((line, position), amount) in lines.zip(&day.positions).zip(amounts) {
            let fields: Vec<&str> = line.split(',').collect();
            let held = day.marks[position.mark as usize];
            let prices = mark(&day.bytes(), position.mark as usize).expect("a mark of the file");
            assert_eq!(fields.len(), 12, "{line}");
            assert_eq!(fields[0], position.account.to_string());
            assert_eq!(fields[2].as_bytes(), held.code);
            assert_eq!([fields[3], fields[4]], [held.month.to_string(), held.year.to_string()]);
            assert_eq!(fields[5], position.lots.to_string());
            assert_eq!([units(fields[6]), units(fields[7])], [prices.previous, prices.final_price]);
            assert_eq!(fields[8], prices.corrected_by.map_or_else(String::new, |number| number.to_string()));
            assert_eq!(cents(fields[9]), prices.change);
            assert_eq!(cents(fields[10]), amount);
            assert_eq!(cents(fields[9]) * i64::from(position.lots), cents(fields[10]));
            assert_eq!(fields[11], currency(held.code));
        }
    }
}

/// What the table for people says: each account's amounts and subtotals by currency, the totals, and the resent corrections.
#[derive(Default)]
struct Table {
    amounts: Vec<(u32, i64)>,
    subtotals: BTreeMap<(u32, String), i64>,
    totals: HashMap<String, i64>,
    resent: HashMap<u32, usize>,
    resent_count: usize,
}

/// The count at the start of a line such as `2 corrections were sent again`.
fn count(line: &str) -> usize {
    let word = line.split(' ').next().unwrap_or_default().replace(',', "");
    if word == "no" {
        0
    } else {
        word.parse().expect("a count")
    }
}

fn table(text: &str) -> Table {
    let mut table = Table::default();
    let mut account = 0;
    let mut lines = text.lines();
    assert!(lines.next().expect("a heading").trim_start().starts_with("account  contract"));
    for line in lines {
        let words: Vec<&str> = line.split_whitespace().collect();
        match words[..] {
            [] => {}
            ["total", amount, currency] => drop(table.totals.insert(currency.to_string(), cents(amount))),
            ["subtotal", amount, currency] => {
                let earlier = table.subtotals.insert((account, currency.to_string()), cents(amount));
                assert_eq!(earlier, None);
            }
            ["number", number, once] => {
                assert_eq!(once, "once");
                table.resent.insert(number.trim_end_matches(':').parse().expect("a number"), 1);
            }
            ["number", number, times, "times"] => {
                let times = times.parse().expect("a count");
                table.resent.insert(number.trim_end_matches(':').parse().expect("a number"), times);
            }
            [.., "sent", "again"] => table.resent_count = count(line),
            _ => {
                if words.len() == 11 {
                    account = words[0].parse().expect("an account");
                }
                table.amounts.push((account, cents(words[words.len() - 2])));
            }
        }
    }
    table
}

#[test]
fn subtotals_add_up_to_the_librarys_totals() {
    let mut random = Random::new(2_891_336_453);
    let (mut resent, mut both) = (0, 0);
    for _ in 0..1_000 {
        let day = accepted(&mut random);
        let (settled, amounts) = settled(&day);
        let ran = run(&["explain"], &day.bytes());
        assert_eq!((ran.status, ran.err.as_str()), (0, ""));
        let table = table(&ran.out);
        assert_eq!(table.totals, HashMap::from([("AUD".to_string(), settled.aud), ("NZD".to_string(), settled.nzd)]));
        for (currency, total) in &table.totals {
            let subtotals = table.subtotals.iter().filter(|((_, name), _)| name == currency).map(|(_, cents)| cents);
            assert_eq!(subtotals.sum::<i64>(), *total);
        }
        let mut sums = BTreeMap::new();
        for (position, amount) in day.positions.iter().zip(&amounts) {
            let key = (position.account, currency(day.marks[position.mark as usize].code).to_string());
            *sums.entry(key).or_insert(0) += amount;
        }
        both += sums.keys().filter(|(account, _)| sums.contains_key(&(*account, "NZD".to_string()))).count();
        assert_eq!(table.subtotals, sums);
        accounts_in_order(&day, &table, &amounts);
        resent += resent_as_counted(&day, &table, settled.resent);
    }
    assert!(
        resent > 100 && both > 100,
        "days with resent corrections {resent}, subtotals beside those of the other currency {both}"
    );
}

/// Accounts come in the order of their first positions, and an account's positions in the order of the file.
fn accounts_in_order(day: &Day, table: &Table, amounts: &[i64]) {
    let mut seen = HashSet::new();
    let accounts = day.positions.iter().map(|position| position.account).filter(|account| seen.insert(*account));
    let of = |account: u32| {
        let positions = day.positions.iter().zip(amounts).filter(move |(position, _)| position.account == account);
        positions.map(move |(_, amount)| (account, *amount))
    };
    assert_eq!(table.amounts, accounts.flat_map(of).collect::<Vec<_>>());
}

/// Each number that comes more than once is told with how often it came again. Answers whether there is any.
fn resent_as_counted(day: &Day, table: &Table, resent: usize) -> usize {
    let mut times: HashMap<u32, usize> = HashMap::new();
    day.corrections.iter().for_each(|correction| *times.entry(correction.number).or_default() += 1);
    let again: HashMap<u32, usize> = times.into_iter().filter(|&(_, n)| n > 1).map(|(number, n)| (number, n - 1)).collect();
    assert_eq!(table.resent, again);
    assert_eq!(table.resent.values().sum::<usize>(), resent);
    assert_eq!(table.resent_count, resent);
    resent.min(1)
}

#[test]
fn the_sample_day() {
    let ran = run(&["explain"], &sample().bytes());
    assert_eq!(ran.status, 0);
    let expected = "   1001  IR Mar 27   250    95.68   95.71            -             +72.42  +18,105.00  AUD
         XT Mar 27   -40    95.29   95.345          31            +462.46  -18,498.40  AUD
         subtotal                                                             -393.40  AUD
";
    assert!(ran.out.contains(expected), "{}", ran.out);
    assert!(ran.out.contains("1 correction was sent again\n  number 31: once\n"), "{}", ran.out);
}

#[test]
fn a_day_without_positions() {
    let ran = run(&["explain"], &Day::default().bytes());
    assert_eq!(ran.status, 0);
    assert!(ran.out.contains("0.00  AUD\n") && ran.out.contains("no correction was sent again\n"), "{}", ran.out);
    assert_eq!(run(&["explain", "--csv"], &Day::default().bytes()).out.lines().count(), 1);
}

#[test]
fn a_text_is_explained_as_its_file() {
    let text = include_bytes!("../../../samples/day.txt");
    let file = run(&["explain"], &sample().bytes());
    assert_eq!(run(&["explain", "--text"], text).out, file.out);
}
