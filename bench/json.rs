//! The peer of `bench json`: reads one JSON text from standard input by serde_json, and times the reading and the printing of
//! it as `bench json TURNS` does. The features that keep a number's text and the order of members are on.
use serde_json::Value;
use std::io::Read;
use std::time::Instant;

fn main() {
    let turns: u32 = std::env::args().nth(1).and_then(|word| word.parse().ok()).expect("TURNS is a number");
    let mut text = Vec::new();
    std::io::stdin().read_to_end(&mut text).expect("the text is read");
    let mut reading = 0;
    for _ in 0..turns {
        let start = Instant::now();
        let value: Value = serde_json::from_slice(&text).expect("the text is JSON");
        reading += start.elapsed().as_nanos();
        drop(value);
    }
    let value: Value = serde_json::from_slice(&text).expect("the text is JSON");
    let mut printing = 0;
    let mut printed = 0;
    for _ in 0..turns {
        let start = Instant::now();
        let out = serde_json::to_string(&value).expect("the value is printed");
        printing += start.elapsed().as_nanos();
        printed = out.len();
    }
    println!("read {} bytes {turns} turns {reading} ns", text.len());
    println!("print {printed} bytes {turns} turns {printing} ns");
}
