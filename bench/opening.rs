// Times opening closed shelves of several sizes beside a plain copy of their bytes, turn by turn, and prints a table.
//
//     opening PRODUCT COPY DIRECTORY ROUNDS [instructions]
//
// With `instructions`, valgrind counts the instructions of each process in place of the clock.
use std::process::{Command, Stdio};
use std::time::Instant;

const SIZES: [u64; 5] = [0, 62_500, 125_000, 250_000, 500_000];
const KINDS: [(&str, &str); 2] = [("small", "entries of 5 records"), ("large", "entries of 50,000 records")];

struct Setting {
    product: String,
    copy: String,
    directory: String,
    rounds: usize,
}

impl Setting {
    fn words(&self, copies: bool, kind: &str, size: u64) -> Vec<String> {
        let shelf = format!("{}/{kind}-{size}.shelf", self.directory);
        if copies {
            vec![self.copy.clone(), shelf, format!("{}/copied", self.directory)]
        } else {
            vec![self.product.clone(), shelf, "open".to_string()]
        }
    }

    // What is measured must be an opening that is not refused.
    fn opens(&self, kind: &str, size: u64) {
        let words = self.words(false, kind, size);
        let output = Command::new(&words[0]).args(&words[1..]).output().expect("no such program");
        let said = String::from_utf8_lossy(&output.stdout).into_owned();
        println!("{kind}-{size}: {}", said.trim_end());
        assert!(said.contains(if size == 0 { "0 entries, open" } else { "closed" }), "not opened: {said}");
    }

    // Milliseconds of one process.
    fn time(&self, words: &[String]) -> f64 {
        let mut command = Command::new(&words[0]);
        command.args(&words[1..]).stdout(Stdio::null()).stderr(Stdio::null());
        let start = Instant::now();
        command.status().expect("no such program");
        start.elapsed().as_secs_f64() * 1e3
    }

    // Millions of instructions of one process.
    fn instructions(&self, words: &[String]) -> f64 {
        let output = Command::new("valgrind")
            .args(["--tool=callgrind", "--callgrind-out-file=/dev/null"])
            .args(words)
            .output()
            .expect("no valgrind");
        let said = String::from_utf8_lossy(&output.stderr).into_owned();
        let count = said.split("Collected :").nth(1).and_then(|rest| rest.split_whitespace().next());
        count.expect("no count").parse::<f64>().expect("no number") / 1e6
    }
}

fn middle(mut values: Vec<f64>) -> f64 {
    values.sort_by(f64::total_cmp);
    values[values.len() / 2]
}

fn main() {
    let words: Vec<String> = std::env::args().collect();
    let setting = Setting {
        product: words[1].clone(),
        copy: words[2].clone(),
        directory: words[3].clone(),
        rounds: words[4].parse().expect("no number of rounds"),
    };
    let counted = words.get(5).is_some();
    // an empty shelf: what a process takes that opens nothing
    for (kind, _) in KINDS {
        std::fs::write(format!("{}/{kind}-0.shelf", setting.directory), "").expect("not written");
    }
    if !counted {
        KINDS.iter().for_each(|(kind, _)| SIZES.iter().for_each(|size| setting.opens(kind, *size)));
    }
    let unit = if counted { "millions of instructions" } else { "ms, median" };
    println!("\n| {unit} | records | opening | less an empty shelf's | for 1,000 records | copy |\n|---|---|---|---|---|---|");
    for (kind, name) in KINDS {
        let mut empty = 0.0;
        for size in SIZES {
            let measure = |copies| {
                let words = setting.words(copies, kind, size);
                middle((0..setting.rounds).map(|_| if counted { setting.instructions(&words) } else { setting.time(&words) }).collect())
            };
            let (opening, copy) = (measure(false), measure(true));
            if size == 0 {
                empty = opening;
                println!("| {name} | 0 | {opening:.2} | | | {copy:.2} |");
            } else {
                let own = opening - empty;
                println!("| {name} | {size} | {opening:.2} | {own:.2} | {:.4} | {copy:.2} |", own * 1e3 / size as f64);
            }
        }
    }
}
