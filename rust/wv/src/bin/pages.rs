//! Prints the manual page or a shell's completions: `pages man`, `pages bash`,
//! `pages zsh`, `pages fish`. `tools/install` writes them where they belong.

use std::process::ExitCode;
use wv::pages;

fn main() -> ExitCode {
    let words: Vec<String> = std::env::args().skip(1).collect();
    let page = match words.iter().map(String::as_str).collect::<Vec<_>>()[..] {
        ["man"] => pages::man(),
        ["bash"] => pages::bash(),
        ["zsh"] => pages::zsh(),
        ["fish"] => pages::fish(),
        _ => {
            eprintln!("usage: pages man | bash | zsh | fish");
            return ExitCode::from(2);
        }
    };
    print!("{page}");
    ExitCode::SUCCESS
}
