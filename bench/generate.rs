// Writes the files of the benchmark into a directory: valid ones of exactly 50,000 records in one section, and of each a copy that
// is refused at its first record, so that a program reads the same bytes and has nothing to check.
//
//     generate DIRECTORY
use std::io::Result;
use std::path::Path;

const RECORDS: u64 = 50_000;
// start, opening, deposit, end
const FRAME: u64 = 4;

fn start() -> String {
    format!("01BGMAX{:15}0120310402081500000000P", "")
}

fn opening() -> String {
    format!("050000004711{:10}SEK", "")
}

// A payment by a payer with a number that has nothing to do with its order.
fn payment(payer: u64, serial: u64) -> String {
    let number = 1_000_000_000 + payer * 7_919 % 1_000_003;
    format!("20{number:010}{:>25}{:018}20{serial:012}0", 10 * serial + 7, amount(serial))
}

fn amount(serial: u64) -> u64 {
    100 + serial * 37 % 1_000_000
}

fn information(serial: u64) -> String {
    format!("25Rent for the quarter, payment {serial}")
}

fn deposit(payments: u64) -> String {
    let sum: u64 = (1..=payments).map(amount).sum();
    format!("15{:035}2031040200001{sum:018}SEK{payments:08} ", 0)
}

fn end(payments: u64) -> String {
    format!("70{payments:08}{:08}{:08}{:08}", 0, 0, 1)
}

// So many payments by so many payers in turn, each of the first few with one information record.
fn file(payments: u64, payers: u64, informed: u64) -> String {
    let mut records = vec![start(), opening()];
    for serial in 1..=payments {
        records.push(payment(serial % payers, serial));
        if serial <= informed {
            records.push(information(serial));
        }
    }
    records.push(deposit(payments));
    records.push(end(payments));
    assert_eq!(records.len() as u64, RECORDS);
    records.iter().map(|record| format!("{record:80}\n")).collect()
}

fn write(directory: &Path, name: &str, text: &str) -> Result<()> {
    std::fs::write(directory.join(format!("{name}.bgmax")), text)?;
    let refused = text.replacen("01BGMAX", "02BGMAX", 1);
    std::fs::write(directory.join(format!("{name}-refused.bgmax")), refused)
}

fn main() -> Result<()> {
    let directory = std::env::args().nth(1).expect("write generate DIRECTORY");
    let directory = Path::new(&directory);
    write(directory, "few", &file(RECORDS - FRAME, 10, 0))?;
    write(directory, "many", &file(25_000, 25_000, RECORDS - FRAME - 25_000))
}
