// The tree of a list of signs that is known to be a score, and what it says: numbers, depth, loops, the played list, the steps and the listing.
use crate::signs::Sign;

pub enum Item {
    Block(u64, u64),
    Repeat(Vec<Item>),
    Group(Vec<Item>, Vec<Vec<Item>>),
}

#[derive(Clone, Copy, PartialEq, Eq)]
pub enum Shape {
    Plain,
    Dc,
    Ds,
    DcFine,
    DsFine,
    DcCoda,
    DsCoda,
}

pub struct Score {
    pub shape: Shape,
    pub runs: Vec<Vec<Item>>,
    pub implied: usize,
}

// What is open while signs are read from left to right.
enum Open {
    Repeat(Vec<Item>),
    Ending(Vec<Item>, Vec<Vec<Item>>, bool),
}

struct Builder {
    open: Vec<Open>,
    items: Vec<Item>,
    implied: usize,
}

impl Builder {
    fn finish_group(&mut self, main: Vec<Item>, endings: Vec<Vec<Item>>, written: bool) {
        let group = Item::Group(main, endings);
        if written {
            match self.open.pop() {
                Some(Open::Repeat(before)) => self.items = before,
                _ => unreachable!(),
            }
        } else {
            self.implied += 1;
            self.items = Vec::new();
        }
        self.items.push(group);
    }
}

pub fn build(signs: &[Sign]) -> Score {
    let mut b = Builder { open: Vec::new(), items: Vec::new(), implied: 0 };
    let mut runs = Vec::new();
    let mut shape = Shape::Plain;
    let mut pending: Option<(Vec<Item>, Vec<Vec<Item>>, bool)> = None;
    let mut i = 0;
    while i < signs.len() {
        match signs[i] {
            Sign::Time(..) => {}
            Sign::Block(k, l) => b.items.push(Item::Block(k, l)),
            Sign::Left => b.open.push(Open::Repeat(std::mem::take(&mut b.items))),
            Sign::Open => {
                let (main, endings, written) = match pending.take() {
                    Some(p) => p,
                    None => (std::mem::take(&mut b.items), Vec::new(), matches!(b.open.last(), Some(Open::Repeat(_)))),
                };
                b.open.push(Open::Ending(main, endings, written));
            }
            Sign::Close => {
                let ending = std::mem::take(&mut b.items);
                let Some(Open::Ending(main, mut endings, written)) = b.open.pop() else { unreachable!() };
                endings.push(ending);
                if signs.get(i + 1) == Some(&Sign::Right) && signs.get(i + 2) == Some(&Sign::Open) {
                    pending = Some((main, endings, written));
                    i += 1;
                } else {
                    b.finish_group(main, endings, written);
                }
            }
            Sign::Right => {
                let body = std::mem::take(&mut b.items);
                match b.open.last() {
                    Some(Open::Repeat(_)) => {
                        let Some(Open::Repeat(before)) = b.open.pop() else { unreachable!() };
                        b.items = before;
                    }
                    _ => b.implied += 1,
                }
                b.items.push(Item::Repeat(body));
            }
            mark => {
                if mark != Sign::Coda || !b.items.is_empty() {
                    runs.push(std::mem::take(&mut b.items));
                }
                match mark {
                    Sign::Dc => shape = Shape::Dc,
                    Sign::Ds => shape = Shape::Ds,
                    Sign::DcFine => shape = Shape::DcFine,
                    Sign::DsFine => shape = Shape::DsFine,
                    Sign::DcCoda => shape = Shape::DcCoda,
                    Sign::DsCoda => shape = Shape::DsCoda,
                    _ => {}
                }
            }
        }
        i += 1;
    }
    if !b.items.is_empty() {
        runs.push(b.items);
    }
    Score { shape, runs, implied: b.implied }
}

// Refusal 5: the first sign whose numbers break their rule.
pub fn bad_number(signs: &[Sign]) -> Option<u64> {
    let mut next = 0;
    for (i, s) in signs.iter().enumerate() {
        match *s {
            Sign::Time(m, n) if m < 1 || m > 99 || ![1, 2, 4, 8, 16, 32, 64].contains(&n) => return Some(i as u64),
            Sign::Block(k, l) => {
                if k != next || l < 1 || k + l > 999999 {
                    return Some(i as u64);
                }
                next = k + l;
            }
            _ => {}
        }
    }
    None
}

// Refusal 6: the first written `|:` that eight others are open around; a group's is open to its last `]`.
pub fn too_deep(signs: &[Sign]) -> Option<u64> {
    let mut open = Vec::new();
    for (i, s) in signs.iter().enumerate() {
        match s {
            Sign::Left => {
                open.push(true);
                if open.iter().filter(|w| **w).count() > 8 {
                    return Some(i as u64);
                }
            }
            Sign::Open => open.push(false),
            Sign::Close => {
                open.pop();
                let goes_on = signs.get(i + 1) == Some(&Sign::Right) && signs.get(i + 2) == Some(&Sign::Open);
                if !goes_on && open.last() == Some(&true) {
                    open.pop();
                }
            }
            Sign::Right => {
                let continues = i > 0 && signs[i - 1] == Sign::Close && signs.get(i + 1) == Some(&Sign::Open);
                if !continues && open.last() == Some(&true) {
                    open.pop();
                }
            }
            _ => {}
        }
    }
    None
}

fn loops(run: &[Item]) -> u64 {
    run.iter()
        .map(|i| match i {
            Item::Block(..) => 0,
            Item::Repeat(r) => 1 + loops(r),
            Item::Group(m, es) => 1 + loops(m) + es.iter().map(|e| loops(e)).sum::<u64>(),
        })
        .sum()
}

// How many blocks a run plays, held at a number that nothing in a score passes.
fn blocks(run: &[Item]) -> u128 {
    const MOST: u128 = 1 << 100;
    let n = run
        .iter()
        .map(|i| match i {
            Item::Block(..) => 1,
            Item::Repeat(r) => 2 * blocks(r),
            Item::Group(m, es) => es.len() as u128 * blocks(m) + es.iter().map(|e| blocks(e)).sum::<u128>(),
        })
        .fold(0, |a: u128, b| (a + b).min(MOST));
    n.min(MOST)
}

fn steps(run: &[Item]) -> u64 {
    run.iter()
        .map(|i| match i {
            Item::Block(..) => 1,
            Item::Repeat(r) => 3 + 2 * steps(r),
            Item::Group(m, es) => {
                let n = es.len() as u64;
                1 + n * (steps(m) + 2 * n + 1) + es.iter().map(|e| steps(e)).sum::<u64>()
            }
        })
        .sum()
}

fn play(run: &[Item], out: &mut Vec<(u64, u64)>) {
    for i in run {
        match i {
            Item::Block(k, l) => out.push((*k, *l)),
            Item::Repeat(r) => {
                play(r, out);
                play(r, out);
            }
            Item::Group(m, es) => {
                for e in es {
                    play(m, out);
                    play(e, out);
                }
            }
        }
    }
}

impl Score {
    // The runs in the order in which the shape plays them, and the constant of its steps.
    fn order(&self) -> (&'static [usize], u64) {
        match self.shape {
            Shape::Plain => (&[0], 0),
            Shape::Dc => (&[0, 0], 3),
            Shape::Ds => (&[0, 1, 1], 3),
            Shape::DcFine => (&[0, 1, 0], 5),
            Shape::DsFine => (&[0, 1, 2, 1], 5),
            Shape::DcCoda => (&[0, 1, 0, 2], 5),
            Shape::DsCoda => (&[0, 1, 2, 1, 3], 5),
        }
    }

    pub fn loops(&self) -> u64 {
        self.runs.iter().map(|r| loops(r)).sum::<u64>() + (self.shape != Shape::Plain) as u64
    }

    pub fn blocks(&self) -> u128 {
        self.order().0.iter().map(|r| blocks(&self.runs[*r])).sum()
    }

    pub fn steps(&self) -> u64 {
        let (order, more) = self.order();
        order.iter().map(|r| steps(&self.runs[*r])).sum::<u64>() + more
    }

    pub fn played(&self) -> Vec<(u64, u64, u64)> {
        let mut out = Vec::new();
        for r in self.order().0 {
            play(&self.runs[*r], &mut out);
        }
        let mut z = 0;
        out.iter()
            .map(|(k, l)| {
                let entry = (*k, *l, z);
                z += l;
                entry
            })
            .collect()
    }

    pub fn listing(&self) -> Vec<String> {
        let mut w = Writer { lines: Vec::new(), loops: 0, labels: 0 };
        let dc = matches!(self.shape, Shape::Dc | Shape::DcFine | Shape::DcCoda);
        let mut jump = None;
        if dc {
            jump = Some(w.open());
        }
        let mut held = None;
        for (n, run) in self.runs.iter().enumerate() {
            match (self.shape, n) {
                (Shape::Ds | Shape::DsFine | Shape::DsCoda, 1) => jump = Some(w.open()),
                (Shape::DcFine | Shape::DcCoda, 1) | (Shape::DsFine | Shape::DsCoda, 2) => {
                    held = Some(w.lines.len());
                    w.lines.push(format!("(jmp,L{},2,", jump.unwrap()));
                }
                (Shape::DcCoda, 2) | (Shape::DsCoda, 3) => {
                    w.lines.push(format!("(rep,L{},2)", jump.unwrap()));
                    w.mark(held.unwrap());
                }
                _ => {}
            }
            w.run(run);
        }
        match self.shape {
            Shape::Dc | Shape::Ds => w.lines.push(format!("(rep,L{},2)", jump.unwrap())),
            Shape::DcFine | Shape::DsFine => {
                w.lines.push(format!("(rep,L{},2)", jump.unwrap()));
                w.mark(held.unwrap());
            }
            _ => {}
        }
        w.lines
    }
}

struct Writer {
    lines: Vec<String>,
    loops: usize,
    labels: usize,
}

impl Writer {
    fn open(&mut self) -> usize {
        self.lines.push(format!("(loop,L{})", self.loops));
        self.loops += 1;
        self.loops - 1
    }

    // The label's mark, and its number at the jump that waits for it.
    fn mark(&mut self, held: usize) {
        self.lines[held] += &format!("B{})", self.labels);
        self.lines.push(format!("(lb,B{})", self.labels));
        self.labels += 1;
    }

    fn run(&mut self, run: &[Item]) {
        for i in run {
            match i {
                Item::Block(k, l) => self.lines.push(format!("(b,{},{})", k, l)),
                Item::Repeat(r) => {
                    let l = self.open();
                    self.run(r);
                    self.lines.push(format!("(rep,L{},2)", l));
                }
                Item::Group(m, es) => {
                    let l = self.open();
                    self.run(m);
                    for (n, e) in es.iter().enumerate() {
                        let held = self.lines.len();
                        self.lines.push(format!("(njmp,L{},{},", l, n + 1));
                        self.run(e);
                        self.mark(held);
                    }
                    self.lines.push(format!("(rep,L{},{})", l, es.len()));
                }
            }
        }
    }
}
