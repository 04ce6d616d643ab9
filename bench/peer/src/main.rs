//! The work of `print derive`, `print stmts` and `print file`, done by syn 1 and proc-macro2: what the benchmark compares with.
//!
//!     peer print              reads a struct from standard input and writes its tokens as text
//!     peer steps ROUNDS       writes the nanoseconds of each step, a line a round, to standard error
//!     peer print stmts        the same as `print`, of statements
//!     peer steps stmts ROUNDS the same as `steps`, of statements
//!     peer print file         the same as `print`, of a file
//!     peer steps file ROUNDS  the same as `steps`, of a file
//!     peer bodies             reads a file of Rust and writes the body of each function, a line each
//!     peer items              reads a file of Rust and writes each of its items, a line each
//!     peer read ROUNDS        the same as `steps` of reading any source, by proc-macro2 alone: read, drop
//!     peer text ROUNDS        the same of writing the tokens of any source as text: text, drop
//!
//! The words for statements, files and their parts are there with the feature `statements`. The columns of a line are those of `syn_bench`: read,
//! parse, print, text, drop; and so is what stands on standard output at the end.

#[cfg(feature = "statements")]
mod statements;

use quote::ToTokens;
use std::error::Error;
use std::hint::black_box;
use std::io::{self, Read, Write};
use std::time::Instant;
use syn::parse::Parse;
use syn::DeriveInput;

fn source() -> io::Result<String> {
    let mut bytes = Vec::new();
    io::stdin().read_to_end(&mut bytes)?;
    String::from_utf8(bytes).map_err(|_| io::Error::new(io::ErrorKind::InvalidData, "not UTF-8"))
}

fn print<T: Parse + ToTokens>(source: &str) -> Result<String, Box<dyn Error>> {
    let tokens: proc_macro2::TokenStream = source.parse()?;
    let tree: T = syn::parse2(tokens)?;
    Ok(tree.to_token_stream().to_string())
}

/// The nanoseconds of each step of one round, and how long the text became.
fn round<T: Parse + ToTokens>(source: &str) -> Result<([u128; 5], usize), Box<dyn Error>> {
    let start = Instant::now();
    let tokens: proc_macro2::TokenStream = black_box(source).parse()?;
    let read = start.elapsed();

    let start = Instant::now();
    let tree: T = syn::parse2(tokens)?;
    let parse = start.elapsed();

    let start = Instant::now();
    let printed = black_box(&tree).to_token_stream();
    let print = start.elapsed();

    let start = Instant::now();
    let text = black_box(&printed).to_string();
    let written = start.elapsed();

    let length = text.len();
    let start = Instant::now();
    drop(tree);
    drop(printed);
    drop(text);
    let dropped = start.elapsed();
    let times = [read, parse, print, written, dropped].map(|time| time.as_nanos());
    Ok((times, length))
}

/// Takes the source through all steps as often, and tells how long the text became.
fn rounds<T: Parse + ToTokens>(source: &str, rounds: usize) -> Result<usize, Box<dyn Error>> {
    let mut length = 0;
    for _ in 0..rounds {
        let (times, bytes) = round::<T>(source)?;
        length = bytes;
        eprintln!("{}", times.map(|time| time.to_string()).join(" "));
    }
    Ok(length)
}

/// Reads the source as often, and once more to tell how many token trees it has.
fn read_rounds(source: &str, rounds: usize) -> Result<usize, Box<dyn Error>> {
    for _ in 0..rounds {
        let start = Instant::now();
        let tokens: proc_macro2::TokenStream = black_box(source).parse()?;
        let read = start.elapsed();

        let start = Instant::now();
        drop(tokens);
        eprintln!("{} {}", read.as_nanos(), start.elapsed().as_nanos());
    }
    let tokens: proc_macro2::TokenStream = source.parse()?;
    Ok(tokens.into_iter().count())
}

/// Reads the source once and writes its tokens as text as often, and once more for the answer.
fn text_rounds(source: &str, rounds: usize) -> Result<String, Box<dyn Error>> {
    let tokens: proc_macro2::TokenStream = source.parse()?;
    for _ in 0..rounds {
        let start = Instant::now();
        let written = black_box(&tokens).to_string();
        let text = start.elapsed();

        let start = Instant::now();
        drop(written);
        eprintln!("{} {}", text.as_nanos(), start.elapsed().as_nanos());
    }
    Ok(tokens.to_string())
}

const USAGE: &str = "usage: peer print [stmts|file], peer steps [stmts|file] ROUNDS, peer bodies|items, \
                     or peer read|text ROUNDS";

fn main() -> Result<(), Box<dyn Error>> {
    let words: Vec<String> = std::env::args().skip(1).collect();
    let words: Vec<&str> = words.iter().map(String::as_str).collect();
    let answer = match words[..] {
        ["print"] => print::<DeriveInput>(&source()?)?,
        ["steps", times] => rounds::<DeriveInput>(&source()?, times.parse()?)?.to_string(),
        #[cfg(feature = "statements")]
        ["print", "stmts"] => print::<statements::Stmts>(&source()?)?,
        #[cfg(feature = "statements")]
        ["steps", "stmts", times] => {
            rounds::<statements::Stmts>(&source()?, times.parse()?)?.to_string()
        }
        #[cfg(feature = "statements")]
        ["print", "file"] => print::<syn::File>(&source()?)?,
        #[cfg(feature = "statements")]
        ["steps", "file", times] => rounds::<syn::File>(&source()?, times.parse()?)?.to_string(),
        #[cfg(feature = "statements")]
        ["bodies"] => statements::bodies(&source()?)?.join("\n"),
        #[cfg(feature = "statements")]
        ["items"] => statements::items(&source()?)?.join("\n"),
        ["read", times] => read_rounds(&source()?, times.parse()?)?.to_string(),
        ["text", times] => text_rounds(&source()?, times.parse()?)?,
        _ => return Err(USAGE.into()),
    };
    writeln!(io::stdout(), "{answer}")?;
    Ok(())
}
