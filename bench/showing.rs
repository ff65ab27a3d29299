// Counts the instructions of showing an entry and of its plain copy beside those of checking the file that it was taken in from, and
// prints a table of them by the record.
//
//     showing PRODUCT DIRECTORY
//
// It takes the two files of `generate` in, each on a shelf of its own. valgrind counts what runs within one function of the program and in
// what it calls: so neither reading files, nor opening the shelf, nor printing rows is counted.
use std::fs;
use std::process::{Command, Stdio};

const CASES: [(&str, &str); 2] = [("few", "(i) 10 payers"), ("many", "(ii) 25,000 payers")];
const RECORDS: f64 = 50_000.0;

struct Setting {
    product: String,
    directory: String,
}

impl Setting {
    fn path(&self, name: &str) -> String {
        format!("{}/{name}", self.directory)
    }

    // A new shelf with the file as its one entry.
    fn shelf(&self, name: &str) -> String {
        let shelf = self.path(&format!("{name}.one-entry"));
        let _ = fs::remove_file(&shelf);
        let file = self.path(&format!("{name}.bgmax"));
        let status = Command::new(&self.product).args([&shelf, "take-in", &file]).stdout(Stdio::null()).status();
        assert!(status.expect("no such program").success(), "{file} is not taken in");
        shelf
    }

    // Instructions by the record, within one function of a run that has these words.
    fn by_record(&self, function: &str, words: &[&str]) -> f64 {
        let output = Command::new("valgrind")
            .args(["--tool=callgrind", "--callgrind-out-file=/dev/null"])
            .arg(format!("--toggle-collect=*{function}*"))
            .arg(&self.product)
            .args(words)
            .stdout(Stdio::null())
            .output()
            .expect("no valgrind");
        assert!(output.status.success(), "{words:?} was refused");
        let said = String::from_utf8_lossy(&output.stderr).into_owned();
        let count = said.split("Collected :").nth(1).and_then(|rest| rest.split_whitespace().next());
        let count = count.expect("no count").parse::<f64>().expect("no number");
        assert!(count > RECORDS, "{function} is not there, or was not called");
        count / RECORDS
    }

    fn print_case(&self, name: &str, case: &str) {
        let shelf = self.shelf(name);
        let file = self.path(&format!("{name}.bgmax"));
        let copy = self.path(&format!("{name}.copy"));
        let _ = fs::remove_file(&copy);
        let check = self.by_record("checked", &["check", &file]);
        let show = self.by_record("entry_rows", &[&shelf, "show", "1"]);
        let plain = self.by_record("entry_copy", &[&shelf, "plain", "1", &copy]);
        println!("| {case} | {check:.0} | {show:.0} | {plain:.0} | {:.2} | {:.2} |", show / check, plain / check);
    }
}

fn main() {
    let words: Vec<String> = std::env::args().collect();
    let [_, product, directory] = &words[..] else {
        panic!("showing PRODUCT DIRECTORY");
    };
    let setting = Setting { product: product.clone(), directory: directory.clone() };
    println!("| instructions a record | checking | showing | plain copy | showing to checking | copy to checking |");
    println!("|---|---|---|---|---|---|");
    for (name, case) in CASES {
        setting.print_case(name, case);
    }
}
