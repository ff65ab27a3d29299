// Writes the shelves of the benchmark of opening into a directory: closed volumes of exactly so many records, of entries that are as
// small as an entry can be, or as large.
//
//     shelves DIRECTORY
use std::path::Path;

const SIZES: [u64; 4] = [62_500, 125_000, 250_000, 500_000];
// start, opening, deposit, end: an entry has these and its payments
const FRAME: u64 = 4;

fn amount(serial: u64) -> u64 {
    100 + serial * 37 % 1_000_000
}

// The records of a file with so many payments, and the sum of them.
fn file(entry: u64, payments: u64) -> (Vec<String>, u64) {
    let sum = (1..=payments).map(amount).sum();
    let mut records = vec![
        format!("01BGMAX{:15}012031040208{:010}P", "", entry % 3_600 / 60 * 100_000_000 + entry % 60 * 1_000_000 + entry % 1_000_000),
        format!("050000004711{:10}SEK", ""),
    ];
    records.extend((1..=payments).map(|serial| {
        let payer = 1_000_000_000 + serial % 10;
        format!("20{payer:010}{:>25}{:018}20{serial:012}0", 10 * serial + 7, amount(serial))
    }));
    records.push(format!("15{:035}2031040200001{sum:018}SEK{payments:08} ", 0));
    records.push(format!("70{payments:08}{:08}{:08}{:08}", 0, 0, 1));
    (records, sum)
}

// Seventy-eight digits with their check digits behind them.
fn checked(digits: String) -> String {
    assert_eq!(digits.len(), 78);
    let remainder = digits.bytes().chain(*b"00").fold(0, |r, digit| (10 * r + u64::from(digit - b'0')) % 97);
    format!("{digits}{:02}", 98 - remainder)
}

// A closed volume of so many records; each entry has so many, but the last, which fills it up.
fn shelf(size: u64, each: u64) -> String {
    let mut records: Vec<String> = Vec::new();
    let (mut entries, mut last) = (0, 0);
    while last + 1 < size {
        let left = size - 1 - last - 1;
        let many = if left < each + 1 + FRAME + 1 { left.min(50_000) } else { each };
        let (lines, sum) = file(entries, many - FRAME);
        entries += 1;
        let head = format!("99{many:08}{entries:08}{last:08}{:08}{:08}{sum:018}{:018}", many - FRAME, 0, 0);
        records.extend(lines);
        records.push(checked(head));
        last += many + 1;
    }
    records.push(checked(format!("98{entries:08}{last:08}{:060}", 0)));
    assert_eq!(records.len() as u64, size);
    records.iter().map(|record| format!("{record:80}")).collect()
}

fn main() -> std::io::Result<()> {
    let directory = std::env::args().nth(1).expect("write shelves DIRECTORY");
    for (name, each) in [("small", FRAME + 1), ("large", 50_000)] {
        for size in SIZES {
            std::fs::write(Path::new(&directory).join(format!("{name}-{size}.shelf")), shelf(size, each))?;
        }
    }
    Ok(())
}
