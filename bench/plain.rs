// The rules of docs/FORMAT.md, docs/REFUSALS.md and docs/EDITIONS.md for checking a file, in plain Rust: what the product's speed
// is compared with. It shares no code with the product, and nothing of it is proved.
//
//     plain [--table linear|hash] [--payers N] [--times N] check FILE [under bare|house]
//
// It prints the line that the product prints. With --times it checks the file so often within one process, and prints the
// least and the middle time of one checking, in nanoseconds.
use std::collections::HashMap;
use std::hint::black_box;
use std::time::Instant;

const MOST_RECORDS: usize = 50_000;
const HIGHEST_AMOUNT: u64 = 9_999_999_999_999;
const MOST_INFORMATION: u32 = 99;

// A table of sums by payer, of a limited number of rows.
trait Payers {
    fn clear(&mut self);
    // False where the payer is new and no row is left.
    fn enter(&mut self, payer: u64, added: u64, taken: u64) -> bool;
    fn covered(&self) -> bool;
}

struct Row {
    payer: u64,
    added: u64,
    taken: u64,
}

// Rows in order of first appearance, searched from the first.
struct Linear {
    rows: Vec<Row>,
    most: usize,
}

impl Payers for Linear {
    fn clear(&mut self) {
        self.rows.clear();
    }

    fn enter(&mut self, payer: u64, added: u64, taken: u64) -> bool {
        if let Some(i) = self.rows.iter().position(|row| row.payer == payer) {
            self.rows[i].added += added;
            self.rows[i].taken += taken;
            return true;
        }
        if self.rows.len() == self.most {
            return false;
        }
        self.rows.push(Row { payer, added, taken });
        true
    }

    fn covered(&self) -> bool {
        self.rows.iter().all(|row| row.taken <= row.added)
    }
}

// The standard hash map, with its standard hash.
struct Hashed {
    sums: HashMap<u64, (u64, u64)>,
    most: usize,
}

impl Payers for Hashed {
    fn clear(&mut self) {
        self.sums.clear();
    }

    fn enter(&mut self, payer: u64, added: u64, taken: u64) -> bool {
        if let Some(sums) = self.sums.get_mut(&payer) {
            sums.0 += added;
            sums.1 += taken;
            return true;
        }
        if self.sums.len() == self.most {
            return false;
        }
        self.sums.insert(payer, (added, taken));
        true
    }

    fn covered(&self) -> bool {
        self.sums.values().all(|(added, taken)| taken <= added)
    }
}

#[derive(Clone, Copy, PartialEq)]
enum Edition {
    Bare,
    House,
}

#[derive(Clone, Copy, PartialEq)]
enum Level {
    File,
    Section,
    Item,
}

impl Edition {
    fn level(self, code: u8) -> Option<Level> {
        match (self, code) {
            (Edition::House, 40) => Some(Level::File),
            (Edition::House, 41) => Some(Level::Item),
            _ => None,
        }
    }

    fn is_well_formed(self, code: u8, record: &[u8]) -> bool {
        match code {
            40 => is_date(at(record, 3, 10)),
            _ => is_digits(at(record, 3, 12)),
        }
    }
}

// The positions from..=to of a record, counted from 1.
fn at(record: &[u8], from: usize, to: usize) -> &[u8] {
    &record[from - 1..to]
}

fn is_text(b: &u8) -> bool {
    matches!(b, 32..=126 | 160..=255)
}

fn is_digits(part: &[u8]) -> bool {
    part.iter().all(u8::is_ascii_digit)
}

fn is_blank(part: &[u8]) -> bool {
    part.iter().all(|&b| b == b' ')
}

fn number(part: &[u8]) -> Option<u64> {
    part.iter().try_fold(0, |n: u64, b| b.is_ascii_digit().then(|| n * 10 + u64::from(b - b'0')))
}

fn amount(part: &[u8]) -> Option<u64> {
    number(part).filter(|&n| n <= HIGHEST_AMOUNT)
}

#[derive(Clone, Copy, PartialEq)]
enum Currency {
    Sek,
    Eur,
}

fn currency(part: &[u8]) -> Option<Currency> {
    match part {
        b"SEK" => Some(Currency::Sek),
        b"EUR" => Some(Currency::Eur),
        _ => None,
    }
}

fn is_date(part: &[u8]) -> bool {
    let (Some(year), Some(month), Some(day)) = (number(&part[..4]), number(&part[4..6]), number(&part[6..8])) else {
        return false;
    };
    let leap = year % 4 == 0 && year % 100 != 0 || year % 400 == 0;
    let days = match month {
        2 => 28 + u64::from(leap),
        4 | 6 | 9 | 11 => 30,
        1..=12 => 31,
        _ => 0,
    };
    (1..=days).contains(&day)
}

fn is_time_stamp(part: &[u8]) -> bool {
    is_digits(part) && is_date(&part[..8]) && &part[8..10] <= b"23" && &part[10..12] <= b"59" && &part[12..14] <= b"59"
}

fn is_reference(code: u8, part: &[u8]) -> bool {
    match code {
        b'0' | b'1' => is_blank(part),
        b'2' => match part.iter().position(|&b| b != b' ') {
            Some(first) => is_digits(&part[first..]),
            None => false,
        },
        b'4' => part[0] != b' ',
        b'3' | b'5' => true,
        _ => false,
    }
}

// A payment, deduction or extra reference.
struct Transfer {
    payer: u64,
    amount: u64,
    serial: u64,
}

fn transfer(record: &[u8]) -> Option<Transfer> {
    let payer = number(at(record, 3, 12))?;
    let amount = amount(at(record, 38, 55))?;
    let serial = number(at(record, 58, 69))?;
    let formed = is_reference(record[55], at(record, 13, 37)) && record[56].is_ascii_digit() && record[69].is_ascii_digit();
    formed.then_some(Transfer { payer, amount, serial })
}

fn is_start(record: &[u8]) -> bool {
    at(record, 3, 22) == b"BGMAX               "
        && is_digits(at(record, 23, 24))
        && is_time_stamp(at(record, 25, 44))
        && matches!(record[44], b'T' | b'P')
}

// An opening record's currency.
fn opening(record: &[u8]) -> Option<Currency> {
    let plusgiro = at(record, 13, 22);
    let formed = is_digits(at(record, 3, 12)) && (is_digits(plusgiro) || is_blank(plusgiro));
    currency(at(record, 23, 25)).filter(|_| formed)
}

struct Deposit {
    sum: u64,
    currency: Currency,
    count: u64,
}

fn deposit(record: &[u8]) -> Option<Deposit> {
    let formed = is_digits(at(record, 3, 37))
        && is_date(at(record, 38, 45))
        && is_digits(at(record, 46, 50))
        && matches!(record[79], b'K' | b'D' | b'S' | b' ');
    let sum = number(at(record, 51, 68))?;
    let currency = currency(at(record, 69, 71))?;
    let count = number(at(record, 72, 79))?;
    formed.then_some(Deposit { sum, currency, count })
}

#[derive(Clone, Copy, Default, PartialEq)]
struct Counts {
    payments: u64,
    deductions: u64,
    extras: u64,
    deposits: u64,
}

fn end(record: &[u8]) -> Option<Counts> {
    Some(Counts {
        payments: number(at(record, 3, 10))?,
        deductions: number(at(record, 11, 18))?,
        extras: number(at(record, 19, 26))?,
        deposits: number(at(record, 27, 34))?,
    })
}

// What the last core record was; `Head` stands for 20 to 23.
#[derive(Clone, Copy, PartialEq)]
enum Last {
    None,
    Start,
    Opening,
    Head,
    Information,
    Name,
    AddressOne,
    AddressTwo,
    Company,
    Deposit,
    End,
}

impl Last {
    fn level(self) -> Option<Level> {
        match self {
            Last::None | Last::End => None,
            Last::Start | Last::Deposit => Some(Level::File),
            Last::Opening => Some(Level::Section),
            _ => Some(Level::Item),
        }
    }

    // What the last core record is behind one of this code, if that may come next.
    fn followed_by(self, code: u8) -> Option<Last> {
        use Last::*;
        match (self, code) {
            (None, 1) => Some(Start),
            (Start | Deposit, 5) => Some(Opening),
            (Opening | Head | Information | Name | AddressTwo | Company, 20 | 21) => Some(Head),
            (Head, 22 | 23) => Some(Head),
            (Head | Information, 25) => Some(Information),
            (Head | Information, 26) => Some(Name),
            (Head | Information | Name, 27) => Some(AddressOne),
            (AddressOne, 28) => Some(AddressTwo),
            (Head | Information | Name | AddressTwo, 29) => Some(Company),
            (Head | Information | Name | AddressTwo | Company, 15) => Some(Deposit),
            (Deposit, 70) => Some(End),
            _ => Option::None,
        }
    }
}

fn is_core(code: u8) -> bool {
    matches!(code, 1 | 5 | 15 | 20..=23 | 25..=29 | 70)
}

struct Checker<'a, P: Payers> {
    payers: &'a mut P,
    edition: Edition,
    last: Last,
    counts: Counts,
    // of the section
    currency: Currency,
    payments: u64,
    deductions: u64,
    paid: u64,
    deducted: u64,
    // of the item
    payer: u64,
    serial: u64,
    information: u32,
}

// A refusal's number.
type Verdict = Result<(), u8>;

impl<'a, P: Payers> Checker<'a, P> {
    fn new(payers: &'a mut P, edition: Edition) -> Self {
        Checker {
            payers,
            edition,
            last: Last::None,
            counts: Counts::default(),
            currency: Currency::Sek,
            payments: 0,
            deductions: 0,
            paid: 0,
            deducted: 0,
            payer: 0,
            serial: 0,
            information: 0,
        }
    }

    fn record(&mut self, record: &[u8]) -> Verdict {
        if !is_digits(&record[..2]) {
            return Err(2);
        }
        let code = (record[0] - b'0') * 10 + record[1] - b'0';
        if is_core(code) {
            return self.core(code, record);
        }
        if self.last == Last::None {
            return Err(3);
        }
        match self.edition.level(code) {
            None => Ok(()),
            level if level != self.last.level() => Err(14),
            _ if !self.edition.is_well_formed(code, record) => Err(13),
            _ => Ok(()),
        }
    }

    fn core(&mut self, code: u8, record: &[u8]) -> Verdict {
        let next = self.last.followed_by(code).ok_or(3)?;
        if code == 15 && self.payments == 0 {
            return Err(3);
        }
        self.last = next;
        match code {
            1 => is_start(record).then_some(()).ok_or(4),
            5 => self.open(record),
            20 => self.pay(record),
            21 => self.deduct(record),
            22 | 23 => self.refer(record),
            25 => self.inform(),
            29 => is_digits(at(record, 3, 14)).then_some(()).ok_or(4),
            15 => self.settle(record),
            70 => self.end(record),
            _ => Ok(()),
        }
    }

    fn open(&mut self, record: &[u8]) -> Verdict {
        self.currency = opening(record).ok_or(4)?;
        self.payers.clear();
        (self.payments, self.deductions, self.paid, self.deducted) = (0, 0, 0, 0);
        Ok(())
    }

    fn begin_item(&mut self, t: &Transfer, added: u64, taken: u64) -> Verdict {
        if !self.payers.enter(t.payer, added, taken) {
            return Err(7);
        }
        (self.payer, self.serial, self.information) = (t.payer, t.serial, 0);
        Ok(())
    }

    fn pay(&mut self, record: &[u8]) -> Verdict {
        let t = transfer(record).ok_or(4)?;
        self.begin_item(&t, t.amount, 0)?;
        self.payments += 1;
        self.paid += t.amount;
        self.counts.payments += 1;
        Ok(())
    }

    fn deduct(&mut self, record: &[u8]) -> Verdict {
        let t = transfer(record).ok_or(4)?;
        if !matches!(record[70], b'0'..=b'2') {
            return Err(4);
        }
        self.begin_item(&t, 0, t.amount)?;
        self.deductions += 1;
        self.deducted += t.amount;
        self.counts.deductions += 1;
        Ok(())
    }

    fn refer(&mut self, record: &[u8]) -> Verdict {
        let t = transfer(record).ok_or(4)?;
        if !matches!(record[55], b'2' | b'4' | b'5') {
            return Err(4);
        }
        if t.payer != self.payer || t.serial != self.serial {
            return Err(5);
        }
        self.counts.extras += 1;
        Ok(())
    }

    fn inform(&mut self) -> Verdict {
        if self.information == MOST_INFORMATION {
            return Err(6);
        }
        self.information += 1;
        Ok(())
    }

    fn settle(&mut self, record: &[u8]) -> Verdict {
        let d = deposit(record).ok_or(4)?;
        if !self.payers.covered() {
            return Err(8);
        }
        let agrees = d.currency == self.currency
            && d.count == self.payments + self.deductions
            && d.sum + self.deducted == self.paid;
        if !agrees {
            return Err(9);
        }
        self.counts.deposits += 1;
        Ok(())
    }

    fn end(&mut self, record: &[u8]) -> Verdict {
        let counts = end(record).ok_or(4)?;
        (counts == self.counts).then_some(()).ok_or(10)
    }
}

// The bytes of the first line's end, if the line is a whole record.
fn line_end(bytes: &[u8]) -> Option<usize> {
    let record = bytes.get(..80)?;
    if !record.iter().all(is_text) {
        return None;
    }
    match &bytes[80..] {
        [b'\n', ..] => Some(1),
        [b'\r', b'\n', ..] => Some(2),
        _ => None,
    }
}

struct Refusal {
    number: u8,
    record: usize,
}

fn check<P: Payers>(file: &[u8], edition: Edition, payers: &mut P) -> Result<Counts, Refusal> {
    let mut checker = Checker::new(payers, edition);
    let mut rest = file;
    let mut record = 1;
    while !rest.is_empty() {
        if record > MOST_RECORDS {
            return Err(Refusal { number: 11, record });
        }
        let end = line_end(rest).ok_or(Refusal { number: 1, record })?;
        checker.record(&rest[..80]).map_err(|number| Refusal { number, record })?;
        rest = &rest[80 + end..];
        record += 1;
    }
    if checker.last == Last::End {
        Ok(checker.counts)
    } else {
        Err(Refusal { number: 12, record })
    }
}

fn cause(number: u8) -> &'static str {
    match number {
        1 => "no whole record",
        2 => "code not two digits",
        3 => "core record out of order, or first not start",
        4 => "field breaks its layout",
        5 => "extra reference unlike its item",
        6 => "100th information record",
        7 => "no place for a new payer",
        8 => "a payer's deductions too high",
        9 => "deposit disagrees",
        10 => "end counts disagree",
        11 => "record 50,001",
        12 => "file ends before its end record",
        13 => "rider ill-formed",
        _ => "rider at a wrong level",
    }
}

struct Asked {
    hash: bool,
    payers: usize,
    times: usize,
    path: String,
    edition: Edition,
}

fn asked() -> Option<Asked> {
    let mut asked = Asked { hash: false, payers: MOST_RECORDS, times: 0, path: String::new(), edition: Edition::House };
    let mut words = std::env::args().skip(1);
    loop {
        match words.next()?.as_str() {
            "--table" => asked.hash = words.next()? == "hash",
            "--payers" => asked.payers = words.next()?.parse().ok()?,
            "--times" => asked.times = words.next()?.parse().ok()?,
            "check" => break,
            _ => return None,
        }
    }
    asked.path = words.next()?;
    if words.next().is_some() && words.next()? == "bare" {
        asked.edition = Edition::Bare;
    }
    Some(asked)
}

fn run<P: Payers>(asked: &Asked, payers: &mut P) -> bool {
    let file = match std::fs::read(&asked.path) {
        Ok(file) => file,
        Err(e) => {
            println!("check {0}: not run, cannot read {0}: {e}", asked.path);
            return false;
        }
    };
    if asked.times > 0 {
        let mut times: Vec<u128> = (0..asked.times)
            .map(|_| {
                let start = Instant::now();
                let _ = black_box(check(black_box(&file), asked.edition, payers));
                start.elapsed().as_nanos()
            })
            .collect();
        times.sort_unstable();
        println!("{} {}", times[0], times[times.len() / 2]);
        return true;
    }
    match check(&file, asked.edition, payers) {
        Ok(c) => println!(
            "check {}: accepted, payments {}, deductions {}, extra references {}, deposits {}",
            asked.path, c.payments, c.deductions, c.extras, c.deposits
        ),
        Err(r) => {
            println!("check {}: refused {}, file, record {}: {}", asked.path, r.number, r.record, cause(r.number));
            return false;
        }
    }
    true
}

fn main() {
    let Some(asked) = asked() else {
        eprintln!("write plain [--table linear|hash] [--payers N] [--times N] check FILE [under bare|house]");
        std::process::exit(1);
    };
    let most = asked.payers;
    let accepted = if asked.hash {
        run(&asked, &mut Hashed { sums: HashMap::new(), most })
    } else {
        run(&asked, &mut Linear { rows: Vec::new(), most })
    };
    std::process::exit(if accepted { 0 } else { 1 });
}
