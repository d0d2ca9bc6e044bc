#![allow(dead_code)]
#![allow(clippy::all)]
mod rt;
mod dense;
mod script;
#[macro_use]
mod driver;
mod mtable;
mod gen;
mod sample;
mod compare;
mod fuzz;
mod probe;
mod bench;
mod shuffle;
mod courses;
mod lines;
#[cfg(feature = "proved")]
mod proved;
#[cfg(feature = "proved")]
mod bench_search;
#[cfg(feature = "blosc")]
mod bench_shuffle;

macro_rules! copy {
    ($name:ident, $file:literal) => {
        mod $name {
            #![allow(unused, clippy::all)]
            include!(concat!(env!("OUT_DIR"), $file));
        }
    };
}
copy!(fst, "/fst.rs");
copy!(plain, "/plain.rs");
copy!(asc, "/asc.rs");
copy!(refusing, "/refusing.rs");
copy!(plain_counted, "/plain_counted.rs");
copy!(dense_dec, "/dense.rs");
copy!(silence, "/silence.rs");
/// What silence_weighting names.
mod decoder {
    pub use crate::asc::Path;
}

use std::io::{Read, Write};

fn usage() -> ! {
    eprintln!(
        "oracle run [plain|asc|refusing] [--bin] [--no-tokens] [--floats]   script on stdin, answers on stdout
oracle conv                text script on stdin, binary script on stdout
oracle text [--floats]     binary script on stdin, text on stdout
oracle diff A.bin B.bin    first differing answer record
oracle mtable              the worked examples of document 01
oracle gen SEED            a random script (text)
oracle gentight SEED       the same with small stores and output slices (11, 13 to 15)
oracle genhuge SEED        the same with numbers near 2^100 (12)
oracle genspoilt SEED      a damaged graph or setting (1 to 6)
oracle gensilence SEED     silence calls
oracle gensearch SEED      searches of a word
oracle genshuffle SEED     blocks to shuffle and to unshuffle
oracle gencourse SEED      courses of frames
oracle genline SEED        lines of refusals
oracle sample DIR N CASE.. the committed sample: N scripts of each generator, and these cases
oracle compare PROGRAM FROM TO [KIND..]   seeds FROM to TO of four generators against a program; without these kinds
oracle against FROM TO     seeds FROM to TO of nine generators against the proved library, in one process (built with --features proved)
oracle probe               experiments on limits and worst cases
oracle fuzz SEED COUNT [DIR]   ascending against unmodified, and the refusing copy's checks
oracle bench [STATES]
oracle bench-search        the proved search and three in Rust (built with --features proved)
oracle bench-shuffle       the proved shuffle, a plain loop and c-blosc's (built with --features proved,blosc)"
    );
    std::process::exit(2)
}

fn stdin() -> Vec<u8> {
    let mut v = Vec::new();
    std::io::stdin().read_to_end(&mut v).unwrap();
    v
}

fn main() {
    // Chains of records are dropped by recursion.
    let t = std::thread::Builder::new().stack_size(4 << 30).spawn(real).unwrap();
    if t.join().is_err() {
        std::process::exit(1);
    }
}

fn real() {
    let args: Vec<String> = std::env::args().skip(1).collect();
    let flag = |f: &str| args.iter().any(|a| a == f);
    let num = |i: usize| args.get(i).and_then(|a| a.parse::<u64>().ok());
    match args.first().map(String::as_str) {
        Some("run") => {
            let mode = if flag("plain") {
                driver::Mode::Plain
            } else if flag("asc") {
                driver::Mode::Asc
            } else {
                driver::Mode::Refusing
            };
            let input = stdin();
            let s = if flag("--bin") {
                script::from_binary(&input)
            } else {
                script::from_text(std::str::from_utf8(&input).expect("text"))
            };
            let s = s.unwrap_or_else(|e| {
                eprintln!("{e}");
                std::process::exit(2)
            });
            let mut d = driver::Driver::new(mode);
            d.tokens = !flag("--no-tokens");
            let mut out = std::io::BufWriter::new(std::io::stdout().lock());
            for r in &s {
                let a = d.call(r);
                if flag("--bin") {
                    out.write_all(&script::to_binary(&[a.rec()])).unwrap();
                } else {
                    writeln!(out, "{}", a.text(flag("--floats"))).unwrap();
                }
            }
        }
        Some("conv") => {
            let s = script::from_text(std::str::from_utf8(&stdin()).expect("text")).expect("script");
            std::io::stdout().write_all(&script::to_binary(&s)).unwrap();
        }
        Some("text") => {
            let s = script::from_binary(&stdin()).expect("script");
            print!("{}", script::to_text(&s, flag("--floats")));
        }
        Some("diff") if args.len() >= 3 => {
            let f = |p: &str| script::from_binary(&std::fs::read(p).expect("file")).expect("records");
            let (a, b) = (f(&args[1]), f(&args[2]));
            for i in 0..a.len().max(b.len()) {
                if a.get(i) != b.get(i) {
                    println!("record {i} differs\n  {:?}\n  {:?}", a.get(i), b.get(i));
                    std::process::exit(1);
                }
            }
            println!("{} records, equal", a.len());
        }
        Some("mtable") => mtable::run(),
        Some("gen") => print!("{}", script::to_text(&gen::case(num(1).unwrap_or(1)).script(), flag("--floats"))),
        Some("gensilence") => print!("{}", script::to_text(&gen::silence(num(1).unwrap_or(1)), flag("--floats"))),
        Some("genspoilt") => print!("{}", script::to_text(&gen::spoilt(num(1).unwrap_or(1)), flag("--floats"))),
        Some("gentight") => print!("{}", script::to_text(&gen::tight(num(1).unwrap_or(1)).script(), flag("--floats"))),
        Some("genhuge") => print!("{}", script::to_text(&gen::huge(num(1).unwrap_or(1)).script(), flag("--floats"))),
        Some("gensearch") => print!("{}", script::to_text(&gen::search(num(1).unwrap_or(1)), flag("--floats"))),
        Some("genshuffle") => print!("{}", script::to_text(&gen::shuffle(num(1).unwrap_or(1)), flag("--floats"))),
        Some("genline") => print!("{}", script::to_text(&lines::generate(num(1).unwrap_or(1)), flag("--floats"))),
        Some("gencourse") => print!("{}", script::to_text(&gen::course(num(1).unwrap_or(1)), flag("--floats"))),
        Some("sample") if args.len() >= 3 => sample::run(&args[1], num(2).unwrap_or(100), &args[3..]),
        Some("compare") if args.len() >= 4 => {
            let without: Vec<u32> = args[4..].iter().filter_map(|a| a.parse().ok()).collect();
            compare::run(&args[1], num(2).unwrap_or(1), num(3).unwrap_or(1), &without)
        }
        #[cfg(feature = "proved")]
        Some("against") => proved::run(num(1).unwrap_or(1), num(2).unwrap_or(1)),
        Some("fuzz") => fuzz::run(num(1).unwrap_or(1), num(2).unwrap_or(1000), args.get(3).map_or("cases", |s| s)),
        Some("probe") => probe::run(),
        Some("bench") => bench::run(num(1)),
        #[cfg(feature = "proved")]
        Some("bench-search") => bench_search::run(),
        #[cfg(feature = "blosc")]
        Some("bench-shuffle") => bench_shuffle::run(),
        _ => usage(),
    }
}
