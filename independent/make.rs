// Random score texts: whole ones of every shape, nested and implied, deep and long, at the limits; and damaged ones.
use crate::signs::{self, Sign};
use crate::{answer, tree, Answer};
use std::io::{self, Write};

pub struct Random(u64);

impl Random {
    pub fn new(seed: u64) -> Random {
        Random(seed.wrapping_mul(0x9e37_79b9_7f4a_7c15) | 1)
    }

    fn next(&mut self) -> u64 {
        self.0 ^= self.0 << 13;
        self.0 ^= self.0 >> 7;
        self.0 ^= self.0 << 17;
        self.0.wrapping_mul(0x2545_f491_4f6c_dd1d) >> 16
    }

    fn below(&mut self, n: u64) -> u64 {
        self.next() % n
    }

    fn one_in(&mut self, n: u64) -> bool {
        self.below(n) == 0
    }
}

struct Maker<'r> {
    random: &'r mut Random,
    signs: Vec<Sign>,
    beat: u64,
    left: i64, // signs that may still be written
}

impl Maker<'_> {
    fn block(&mut self) {
        let l = match self.random.below(12) {
            0 => 1,
            1 => 1 + self.random.below(5000),
            _ => [4, 8, 16, 3, 12][self.random.below(5) as usize],
        };
        self.signs.push(Sign::Block(self.beat, l));
        self.beat += l;
        self.left -= 1;
    }

    fn run(&mut self, depth: u64, first: bool) {
        let mut implied = first && self.random.one_in(2);
        loop {
            match self.random.below(if depth == 0 || self.left < 8 { 1 } else { 5 }) {
                3 => {
                    self.signs.push(Sign::Left);
                    self.left -= 2;
                    self.run(depth - 1, false);
                    self.signs.push(Sign::Right);
                }
                4 => {
                    self.signs.push(Sign::Left);
                    self.left -= 8;
                    self.run(depth - 1, false);
                    self.endings(depth - 1);
                }
                _ => self.block(),
            }
            while implied && self.left > 8 && self.random.one_in(3) {
                if self.random.one_in(3) {
                    self.left -= 8;
                    self.endings(depth.saturating_sub(1));
                } else {
                    self.signs.push(Sign::Right);
                    self.left -= 1;
                }
            }
            if self.random.one_in(40) {
                implied = false;
            }
            if self.left < 2 || self.random.one_in(3) {
                return;
            }
        }
    }

    fn endings(&mut self, depth: u64) {
        let n = 2 + if self.random.one_in(4) { self.random.below(4) } else { 0 };
        for i in 0..n {
            self.signs.push(Sign::Open);
            self.run(depth, false);
            self.signs.push(Sign::Close);
            if i + 1 < n {
                self.signs.push(Sign::Right);
            }
        }
    }
}

// A whole score of a random shape; by chance its signs are not a score after all, as where an implied `:|` meets a `[`.
fn score(random: &mut Random) -> Vec<Sign> {
    let depth = if random.one_in(8) { 10 } else { random.below(5) };
    let size = if random.one_in(30) { 300 } else { 6 + random.below(30) as i64 };
    let shape = random.below(8);
    let mut m = Maker { random, signs: Vec::new(), beat: 0, left: size };
    if m.random.one_in(3) {
        let n = 1 << m.random.below(7);
        let beats = 1 + m.random.below(99);
        m.signs.push(Sign::Time(beats, n));
    }
    let marks: &[Sign] = match shape {
        1 => &[Sign::Dc],
        2 => &[Sign::Segno, Sign::Ds],
        3 => &[Sign::Fine, Sign::DcFine],
        4 => &[Sign::Segno, Sign::Fine, Sign::DsFine],
        5 => &[Sign::ToCoda, Sign::DcCoda, Sign::Coda],
        6 => &[Sign::Segno, Sign::ToCoda, Sign::DsCoda, Sign::Coda],
        _ => &[],
    };
    m.run(depth, true);
    for (i, mark) in marks.iter().enumerate() {
        m.signs.push(*mark);
        m.left = m.left.max(4);
        let more = match mark {
            Sign::DcCoda | Sign::DsCoda => false,
            Sign::Coda => true,
            _ => i + 1 < marks.len(),
        };
        if more {
            m.run(depth, false);
        }
    }
    m.signs
}

// Scores at the limits: many implied closes, many loops, deep nesting, large numbers, long lists.
fn edge(random: &mut Random) -> Vec<Sign> {
    let around = |random: &mut Random, n: u64| n + random.below(3) - 1;
    match random.below(7) {
        0 => {
            let most = if random.one_in(12) { 15 } else { 11 };
            let n = around(random, most);
            let mut s = vec![Sign::Block(0, 4)];
            s.extend((0..n).map(|_| Sign::Right));
            s
        }
        1 => {
            let n = around(random, 64);
            (0..n).flat_map(|i| [Sign::Left, Sign::Block(i, 1), Sign::Right]).collect()
        }
        2 => {
            let n = around(random, 9);
            let mut s: Vec<Sign> = (0..n).map(|_| Sign::Left).collect();
            s.push(Sign::Block(0, 2));
            s.extend((0..n).map(|_| Sign::Right));
            s
        }
        3 => {
            let mut s = vec![Sign::Block(0, 999_990)];
            s.push(Sign::Block(999_990, around(random, 9)));
            s
        }
        4 => {
            let n = around(random, 8);
            let mut s = Vec::new();
            for i in 0..n {
                s.extend([Sign::Left, Sign::Block(i, 1), Sign::Open]);
            }
            s.push(Sign::Block(n, 1));
            for i in 0..n {
                s.extend([Sign::Close, Sign::Right, Sign::Open, Sign::Block(n + 1 + i, 1), Sign::Close]);
            }
            s
        }
        5 => {
            let n = around(random, 17);
            let mut s = vec![Sign::Block(0, 1)];
            s.extend((0..n).map(|_| Sign::Right));
            s
        }
        _ => {
            let n = around(random, 1024);
            (0..n).map(|i| Sign::Block(i, 1)).collect()
        }
    }
}

// A sign of any kind, for damage.
fn any_sign(random: &mut Random) -> Sign {
    use Sign::*;
    let all = [Left, Right, Open, Close, Dc, DcCoda, DcFine, Ds, DsCoda, DsFine, Segno, Coda, ToCoda, Fine, Right, Open, Close, Left];
    match random.below(20) {
        0 => Time(random.below(101), random.below(66)),
        1 => Block(random.below(64), random.below(9)),
        n => all[n as usize % all.len()],
    }
}

fn damage(random: &mut Random, signs: &mut Vec<Sign>) {
    for _ in 0..1 + random.below(3) {
        let n = signs.len() as u64;
        if n == 0 {
            return;
        }
        let at = random.below(n) as usize;
        match random.below(6) {
            0 => signs.swap(at, random.below(n) as usize),
            1 => {
                signs.remove(at);
            }
            2 => signs.insert(at, any_sign(random)),
            3 => signs[at] = any_sign(random),
            4 => signs.truncate(at),
            _ => {
                if let Some(Sign::Block(k, l)) = signs.iter_mut().find(|s| matches!(s, Sign::Block(..))) {
                    *k += random.below(2);
                    *l -= (random.below(3) == 0) as u64 * *l;
                }
            }
        }
    }
}

// The signs as a text on one line: in the writer's form, or crowded, or with other separators.
fn lay(random: &mut Random, signs: &[Sign]) -> Vec<u8> {
    let style = random.below(3);
    let mut text = Vec::new();
    for s in signs {
        let mut word = signs::spell(*s);
        if style == 2 && random.one_in(4) {
            word = word.replace(',', ", ");
        }
        text.extend(word.bytes());
        match style {
            0 => text.push(b' '),
            1 => {}
            _ => text.extend((0..random.below(3)).map(|_| [b' ', b'\t', b'\r'][random.next() as usize % 3])),
        }
    }
    text
}

pub fn text(random: &mut Random) -> Vec<u8> {
    let mut signs = if random.one_in(10) { edge(random) } else { score(random) };
    if random.one_in(3) {
        damage(random, &mut signs);
    }
    let mut text = lay(random, &signs);
    if random.one_in(12) && !text.is_empty() {
        let at = random.below(text.len() as u64) as usize;
        match random.below(3) {
            0 => text[at] = b"(:|[.,Cx"[random.below(8) as usize],
            1 => {
                text.remove(at);
            }
            _ => text.insert(at, b"0 ,)D"[random.below(5) as usize]),
        }
    }
    if random.one_in(150) {
        text.resize(16383 + random.below(4) as usize, b' ');
    }
    text
}

fn has_group_in_ending(run: &[tree::Item], inside: bool) -> bool {
    run.iter().any(|i| match i {
        tree::Item::Block(..) => false,
        tree::Item::Repeat(r) => has_group_in_ending(r, inside),
        tree::Item::Group(m, es) => inside || has_group_in_ending(m, inside) || es.iter().any(|e| has_group_in_ending(e, true)),
    })
}

// How many texts there are of each kind.
pub fn count(lines: &[Vec<u8>], out: &mut impl Write) -> io::Result<()> {
    let mut refused = [0; 9];
    let mut shapes = [0; 7];
    let (mut nested, mut implied, mut after, mut long) = (0, 0, 0, 0);
    for text in lines {
        match answer(text) {
            Answer::Refused(n, p) => {
                refused[n as usize] += 1;
                if let (4, Ok(s)) = (n, signs::read(text)) {
                    let p = p as usize;
                    after += (p >= 2 && s[p - 2..p] == [Sign::Close, Sign::Right]) as u32;
                }
            }
            Answer::Score(s) => {
                shapes[s.shape as usize] += 1;
                nested += s.runs.iter().any(|r| has_group_in_ending(r, false)) as u32;
                implied += (s.implied >= 3) as u32;
                long += (s.blocks() > 2000) as u32;
            }
        }
    }
    writeln!(out, "{} texts; refused by 1 to 8: {:?}; shapes: {:?}", lines.len(), &refused[1..], shapes)?;
    writeln!(out, "a group inside an ending {}, three or more implied {}, `] :|` before the place {}, over 2,000 blocks {}", nested, implied, after, long)
}
