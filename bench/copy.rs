// Copies a file: reads its bytes and writes them again. What opening a shelf is measured beside.
//
//     copy FROM TO
fn main() -> std::io::Result<()> {
    let words: Vec<String> = std::env::args().collect();
    let bytes = std::fs::read(&words[1])?;
    std::fs::write(&words[2], bytes)
}
