// Counts the instructions of balancing shelves of several sizes beside those of opening them, and prints a table.
//
//     balancing PRODUCT DIRECTORY
//
// It takes the closed shelves of `shelves`, all of one payee and currency. valgrind counts what runs within one function of the program and
// in what it calls: so neither reading the shelf's file nor printing is counted.
use std::process::{Command, Stdio};

const SIZES: [u64; 4] = [62_500, 125_000, 250_000, 500_000];
const KINDS: [(&str, &str); 2] = [("small", "entries of 5 records"), ("large", "entries of 50,000 records")];

struct Setting {
    product: String,
    directory: String,
}

impl Setting {
    // Millions of instructions within one function of a run of `balance`, which opens the shelf first.
    fn millions(&self, function: &str, shelf: &str) -> f64 {
        let output = Command::new("valgrind")
            .args(["--tool=callgrind", "--callgrind-out-file=/dev/null"])
            .arg(format!("--toggle-collect=*{function}*"))
            .args([self.product.as_str(), shelf, "balance"])
            .stdout(Stdio::null())
            .output()
            .expect("no valgrind");
        assert!(output.status.success(), "balancing was refused");
        let said = String::from_utf8_lossy(&output.stderr).into_owned();
        let count = said.split("Collected :").nth(1).and_then(|rest| rest.split_whitespace().next());
        let count = count.expect("no count").parse::<f64>().expect("no number");
        assert!(count > 1e6, "{function} is not there, or was not called");
        count / 1e6
    }

    fn print_size(&self, kind: &str, case: &str, size: u64) {
        let shelf = format!("{}/{kind}-{size}.shelf", self.directory);
        let open = self.millions("volume*opening*open", &shelf);
        let balance = self.millions("balance_rows", &shelf);
        let thousand = balance / size as f64 * 1e3;
        println!("| {case} | {size} | {open:.2} | {balance:.2} | {thousand:.4} | {:.2} |", balance / open);
    }
}

fn main() {
    let words: Vec<String> = std::env::args().collect();
    let [_, product, directory] = &words[..] else {
        panic!("balancing PRODUCT DIRECTORY");
    };
    let setting = Setting { product: product.clone(), directory: directory.clone() };
    println!("| millions of instructions | records | opening | balancing | balancing 1,000 records | to opening |");
    println!("|---|---|---|---|---|---|");
    for (kind, case) in KINDS {
        for size in SIZES {
            setting.print_size(kind, case, size);
        }
    }
}
