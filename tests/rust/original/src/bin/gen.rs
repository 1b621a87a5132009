//! Random streams.
//! usage: gen SEED [--commands N] [--count C --dir D [--answers]]
//! One stream on standard output; with a folder, the streams of SEED, SEED + 1, .. in D/SEED.bin, and what the Rust prints in D/SEED.out.
use original::{commands, streams};
use std::io::Write;

fn main() {
    let args: Vec<String> = std::env::args().skip(1).collect();
    let after = |name: &str| args.iter().position(|a| a == name).and_then(|i| args.get(i + 1));
    let number = |name: &str, default: u64| after(name).map_or(default, |n| n.parse().expect("a number"));
    let seed: u64 = args.first().and_then(|s| s.parse().ok()).expect("a seed");
    let length = number("--commands", 300) as usize;
    let Some(folder) = after("--dir") else {
        std::io::stdout().write_all(&streams::stream(seed, length)).unwrap();
        return;
    };
    std::fs::create_dir_all(folder).unwrap();
    for seed in seed..seed + number("--count", 1) {
        let stream = streams::stream(seed, length);
        std::fs::write(format!("{folder}/{seed:06}.bin"), &stream).unwrap();
        if args.iter().any(|a| a == "--answers") {
            std::fs::write(format!("{folder}/{seed:06}.out"), commands::run(&stream)).unwrap();
        }
    }
}
