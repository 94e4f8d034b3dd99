//! `bench make DIR` writes the recordings; `bench time FILE SETUP REPEAT` runs the Rust bridge over one: the
//! first SETUP steps once, the others REPEAT times. It prints how many messages and calls there were, so that
//! both programs can be seen to have done the same work.

mod feed;
mod make;

fn main() {
    let words: Vec<String> = std::env::args().skip(1).collect();
    let words: Vec<&str> = words.iter().map(String::as_str).collect();
    match words[..] {
        ["make", dir] => make::all(dir),
        ["time", file, setup, repeat] => {
            let bytes = std::fs::read(file).expect("a recording");
            let case = oracle::recording::read(&bytes).expect("a recording").remove(0);
            let setup: usize = setup.parse().expect("a number");
            let repeat: usize = repeat.parse().expect("a number");
            let counts = feed::run(&case, setup, repeat);
            println!("messages {} calls {}", counts.messages, counts.calls);
        }
        _ => {
            eprintln!("bench make DIR | bench time FILE SETUP REPEAT");
            std::process::exit(2);
        }
    }
}
