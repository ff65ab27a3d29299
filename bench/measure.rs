// Times the product and the plain program over the same files, turn by turn in one run, and prints tables of the results.
//
//     measure PRODUCT PLAIN ALIGNED DIRECTORY ROUNDS [instructions]
//
// ALIGNED is the plain program with its loops at addresses that are multiples of 64: where a small loop lies decides much of its speed.
// A time of checking is that of a whole process over a file, less that of one over the copy that is refused at its first record.
// With `instructions`, valgrind counts the instructions of each process in place of the clock; one round is enough then.
use std::process::{Command, Stdio};
use std::time::Instant;

const PROGRAMS: [&str; 4] = ["product", "linear", "linear, aligned", "hash"];
const CASES: [(&str, &str); 2] = [("few", "(i) 10 payers"), ("many", "(ii) 25,000 payers")];

struct Setting {
    product: String,
    plain: String,
    aligned: String,
    directory: String,
    rounds: usize,
}

impl Setting {
    // The words that check a file by a program, with a table that is large enough for every file.
    fn words(&self, program: usize, name: &str) -> Vec<String> {
        let path = format!("{}/{name}.bgmax", self.directory);
        let head: &[&str] = match program {
            0 => &[&self.product],
            1 => &[&self.plain, "--table", "linear"],
            2 => &[&self.aligned, "--table", "linear"],
            _ => &[&self.plain, "--table", "hash"],
        };
        head.iter().copied().chain(["--payers", "50000", "check", &path]).map(String::from).collect()
    }

    fn output(&self, program: usize, name: &str) -> String {
        let words = self.words(program, name);
        let output = Command::new(&words[0]).args(&words[1..]).output().expect("no such program");
        String::from_utf8_lossy(&output.stdout).into_owned()
    }

    // All programs must say the same of each file, or there is nothing to compare.
    fn agree(&self) {
        for (name, _) in CASES {
            for (name, word) in [(name.to_string(), "accepted"), (format!("{name}-refused"), "refused 3, file, record 1:")] {
                let lines: Vec<String> = (0..PROGRAMS.len()).map(|p| self.output(p, &name)).collect();
                print!("{}", lines[0]);
                assert!(lines[0].contains(word), "{name}: not {word}");
                assert!(lines.iter().all(|line| *line == lines[0]), "{name}: different answers: {lines:?}");
            }
        }
    }

    // Milliseconds of one process.
    fn time(&self, program: usize, name: &str) -> f64 {
        let words = self.words(program, name);
        let mut command = Command::new(&words[0]);
        command.args(&words[1..]).stdout(Stdio::null()).stderr(Stdio::null());
        let start = Instant::now();
        command.status().expect("no such program");
        start.elapsed().as_secs_f64() * 1e3
    }

    // Millions of instructions of one process.
    fn instructions(&self, program: usize, name: &str) -> f64 {
        let output = Command::new("valgrind")
            .args(["--tool=callgrind", "--callgrind-out-file=/dev/null"])
            .args(self.words(program, name))
            .output()
            .expect("no valgrind");
        let said = String::from_utf8_lossy(&output.stderr).into_owned();
        let count = said.split("Collected :").nth(1).and_then(|rest| rest.split_whitespace().next());
        count.expect("no count").parse::<f64>().expect("no number") / 1e6
    }

    // The least and the middle time of one checking within the plain program, in milliseconds.
    fn within(&self, program: usize, name: &str) -> (f64, f64) {
        let mut words = self.words(program, name);
        words.splice(1..1, ["--times".to_string(), self.rounds.to_string()]);
        let output = Command::new(&words[0]).args(&words[1..]).output().expect("no such program");
        let said = String::from_utf8_lossy(&output.stdout).into_owned();
        let mut numbers = said.split_whitespace().map(|word| word.parse::<f64>().expect("no number") / 1e6);
        (numbers.next().expect("no time"), numbers.next().expect("no time"))
    }
}

fn least_and_middle(mut values: Vec<f64>) -> (f64, f64) {
    values.sort_by(f64::total_cmp);
    (values[0], values[values.len() / 2])
}

// A line of the table: each program's value, and the product's as a ratio to each other one.
fn print_line(case: &str, measure: &str, values: &[f64]) {
    let ratios = values[1..].iter().map(|value| values[0] / value);
    let cells: Vec<String> = values.iter().copied().chain(ratios).map(|value| format!("{value:.2}")).collect();
    println!("| {case} | {measure} | {} |", cells.join(" | "));
}

fn print_case(setting: &Setting, name: &str, case: &str, counted: bool) {
    let refused = format!("{name}-refused");
    let mut whole = vec![Vec::new(); PROGRAMS.len()];
    let mut idle = vec![Vec::new(); PROGRAMS.len()];
    for _ in 0..setting.rounds {
        for program in 0..PROGRAMS.len() {
            let value = |name| if counted { setting.instructions(program, name) } else { setting.time(program, name) };
            whole[program].push(value(name));
            idle[program].push(value(&refused));
        }
    }
    let whole: Vec<(f64, f64)> = whole.into_iter().map(least_and_middle).collect();
    let idle: Vec<(f64, f64)> = idle.into_iter().map(least_and_middle).collect();
    let each = |f: &dyn Fn(usize) -> f64| -> Vec<f64> { (0..PROGRAMS.len()).map(f).collect() };
    if counted {
        print_line(case, "process", &each(&|p| whole[p].0));
        print_line(case, "checking", &each(&|p| whole[p].0 - idle[p].0));
        return;
    }
    print_line(case, "process, least", &each(&|p| whole[p].0));
    print_line(case, "process, median", &each(&|p| whole[p].1));
    print_line(case, "checking, least", &each(&|p| whole[p].0 - idle[p].0));
    print_line(case, "checking, median", &each(&|p| whole[p].1 - idle[p].1));
    let within: Vec<(f64, f64)> = (1..PROGRAMS.len()).map(|p| setting.within(p, name)).collect();
    let cells = |values: Vec<f64>| values.iter().map(|value| format!(" | {value:.2}")).collect::<String>();
    println!("| {case} | within, least | {} | | | |", cells(within.iter().map(|w| w.0).collect()));
    println!("| {case} | within, median | {} | | | |", cells(within.iter().map(|w| w.1).collect()));
}

fn main() {
    let words: Vec<String> = std::env::args().collect();
    let setting = Setting {
        product: words[1].clone(),
        plain: words[2].clone(),
        aligned: words[3].clone(),
        directory: words[4].clone(),
        rounds: words[5].parse().expect("no number of rounds"),
    };
    let counted = words.get(6).is_some();
    if !counted {
        setting.agree();
    }
    let unit = if counted { "millions of instructions" } else { "ms" };
    let ratios: Vec<String> = PROGRAMS[1..].iter().map(|program| format!("to {program}")).collect();
    println!("\n| {unit} | | {} | {} |", PROGRAMS.join(" | "), ratios.join(" | "));
    println!("{}|", "|---".repeat(1 + 2 * PROGRAMS.len()));
    for (name, case) in CASES {
        print_case(&setting, name, case, counted);
    }
}
