// An independent reading of document 01: random score texts, and what the listing program must write for each.
//
//   independent answer           a text to a line on standard input; for each what `batch` must write
//   independent one              one text, all of standard input; the same for it
//   independent make SEED COUNT  COUNT random texts, a line each
//   independent count            what kinds of texts stand on standard input
mod grammar;
mod make;
mod signs;
mod tree;

use std::io::{self, BufRead, BufWriter, Read, Write};

pub enum Answer {
    Refused(u32, u64),
    Score(tree::Score),
}

pub fn answer(text: &[u8]) -> Answer {
    let signs = match signs::read(text) {
        Ok(s) => s,
        Err((n, p)) => return Answer::Refused(n, p),
    };
    if let Some(p) = grammar::refused_at(&signs) {
        return Answer::Refused(4, p);
    }
    if let Some(p) = tree::bad_number(&signs) {
        return Answer::Refused(5, p);
    }
    if let Some(p) = tree::too_deep(&signs) {
        return Answer::Refused(6, p);
    }
    let score = tree::build(&signs);
    if score.loops() > 64 {
        return Answer::Refused(7, 64);
    }
    if score.blocks() > 65535 {
        return Answer::Refused(8, 65535);
    }
    Answer::Score(score)
}

// The written beat under a performed beat.
fn written(played: &[(u64, u64, u64)], p: u64) -> u64 {
    let (k, _, z) = played.iter().find(|(_, l, z)| *z <= p && p < z + l).unwrap();
    p - z + k
}

fn tell(text: &[u8], out: &mut impl Write) -> io::Result<()> {
    match answer(text) {
        Answer::Refused(n, p) => writeln!(out, "refused {} {}", n, p),
        Answer::Score(score) => {
            for line in score.listing() {
                writeln!(out, "{}", line)?;
            }
            writeln!(out)?;
            let played = score.played();
            for (k, l, z) in &played {
                writeln!(out, "(b,{},{},{})", k, l, z)?;
            }
            let total: u64 = played.iter().map(|(_, l, _)| l).sum();
            let beats = [0, total / 2, total - 1].map(|p| written(&played, p).to_string()).join(" ");
            writeln!(out, "steps {} total {} beats {}", score.steps(), total, beats)
        }
    }
}

fn main() -> io::Result<()> {
    let words: Vec<String> = std::env::args().collect();
    let mut out = BufWriter::new(io::stdout());
    match words.get(1).map(|s| s.as_str()) {
        Some("answer") => {
            for line in io::stdin().lock().split(b'\n') {
                tell(&line?, &mut out)?;
            }
        }
        Some("one") => {
            let mut text = Vec::new();
            io::stdin().read_to_end(&mut text)?;
            tell(&text, &mut out)?;
        }
        Some("make") => {
            let mut random = make::Random::new(words[2].parse().unwrap());
            for _ in 0..words[3].parse().unwrap() {
                out.write_all(&make::text(&mut random))?;
                out.write_all(b"\n")?;
            }
        }
        Some("count") => {
            let lines: Vec<Vec<u8>> = io::stdin().lock().split(b'\n').collect::<Result<_, _>>()?;
            make::count(&lines, &mut out)?;
        }
        _ => eprintln!("answer | one | make SEED COUNT | count"),
    }
    Ok(())
}
