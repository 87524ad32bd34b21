//! Drives the published MessageHeader: one question a line on standard input, one answer a line on standard output.
//!
//!     header.read HEX                     try_read        absent, or C S LO HI LENGTH SEQNO, or panic
//!     header.write C S LO HI LENGTH SEQNO write_to        HEX
//!
//! HEX is pairs of lowercase hexadecimal digits, `-` for none. Any other question ends the program.
use std::io::{self, BufRead, Write};
use std::panic;

include!(concat!(env!("OUT_DIR"), "/published.rs"));
use networking::MessageHeader;

fn bytes_of(word: &str) -> Vec<u8> {
    if word == "-" {
        return Vec::new();
    }
    assert!(word.len() % 2 == 0, "odd digits: {word}");
    (0..word.len()).step_by(2).map(|at| u8::from_str_radix(&word[at..at + 2], 16).expect("bad digits")).collect()
}

fn hex_of(bytes: &[u8]) -> String {
    bytes.iter().map(|byte| format!("{byte:02x}")).collect()
}

fn read(word: &str) -> String {
    let bytes = bytes_of(word);
    // No message of its own where the published code panics: the answer says it.
    let hook = panic::take_hook();
    panic::set_hook(Box::new(|_| {}));
    let found = panic::catch_unwind(|| MessageHeader::try_read(&bytes));
    panic::set_hook(hook);
    match found {
        Err(_) => "panic".into(),
        Ok(None) => "absent".into(),
        Ok(Some(h)) => {
            format!("{} {} {} {} {} {}", h.channel, h.source, h.target_lower, h.target_upper, h.length, h.seqno)
        }
    }
}

fn write(words: &[&str]) -> String {
    let n: Vec<usize> = words.iter().map(|word| word.parse().expect("bad number")).collect();
    assert!(n.len() == 6, "six numbers are wanted");
    let header = MessageHeader {
        channel: n[0],
        source: n[1],
        target_lower: n[2],
        target_upper: n[3],
        length: n[4],
        seqno: n[5],
    };
    let mut written = Vec::new();
    header.write_to(&mut written).unwrap();
    hex_of(&written)
}

fn main() {
    let mut out = io::BufWriter::new(io::stdout().lock());
    for line in io::stdin().lock().lines() {
        let line = line.unwrap();
        let words: Vec<&str> = line.split(' ').collect();
        let answer = match words[..] {
            ["header.read", word] => read(word),
            ["header.write", ref numbers @ ..] => write(numbers),
            _ => panic!("no such question: {line}"),
        };
        writeln!(out, "{answer}").unwrap();
    }
}
