// Which lists of signs are scores, by a chart over document 01's grammar: the grammar is written down as rules, and the first sign
// at which the chart has no item left is the first such that no score begins with the signs up to it.
use crate::signs::Sign;
use std::collections::HashSet;

#[derive(Clone, Copy, PartialEq, Eq, Hash)]
enum Kind {
    Block,
    Time,
    Left,
    Right,
    Open,
    Close,
    Dc,
    DcCoda,
    DcFine,
    Ds,
    DsCoda,
    DsFine,
    Segno,
    Coda,
    ToCoda,
    Fine,
}

fn kind(s: Sign) -> Kind {
    match s {
        Sign::Block(..) => Kind::Block,
        Sign::Time(..) => Kind::Time,
        Sign::Left => Kind::Left,
        Sign::Right => Kind::Right,
        Sign::Open => Kind::Open,
        Sign::Close => Kind::Close,
        Sign::Dc => Kind::Dc,
        Sign::DcCoda => Kind::DcCoda,
        Sign::DcFine => Kind::DcFine,
        Sign::Ds => Kind::Ds,
        Sign::DsCoda => Kind::DsCoda,
        Sign::DsFine => Kind::DsFine,
        Sign::Segno => Kind::Segno,
        Sign::Coda => Kind::Coda,
        Sign::ToCoda => Kind::ToCoda,
        Sign::Fine => Kind::Fine,
    }
}

#[derive(Clone, Copy, PartialEq, Eq, Hash)]
enum Symbol {
    Sign(Kind),
    Rule(usize),
}

// A run is split by how it ends: in a group (G), in a repeat whose run ends in a group (C), or otherwise (P). A `:|` directly between
// `]` and `[` always continues the group, so what stands before `[` never ends as C does. The first run's items may lack their `|:`.
const SCORE: usize = 0;
const BODY: usize = 1;
const RUN: usize = 2; // RUN + 0, 1, 2: a run that ends as P, G, C
const ITEM: usize = 5;
const ENDINGS: usize = 8;
const ANY: usize = 9; // any run
const FIRST: usize = 10; // as RUN, at the start of the score
const FIRST_ITEM: usize = 13;
const ANY_FIRST: usize = 16;
const RULES: usize = 17;
const P: usize = 0;
const G: usize = 1;
const C: usize = 2;

fn grammar() -> Vec<Vec<Vec<Symbol>>> {
    use Symbol::{Rule, Sign};
    let s = |k: Kind| Sign(k);
    let mut rules: Vec<Vec<Vec<Symbol>>> = vec![Vec::new(); RULES];
    rules[SCORE] = vec![vec![Rule(BODY)], vec![s(Kind::Time), Rule(BODY)]];
    let (a, b) = (Rule(ANY_FIRST), Rule(ANY));
    rules[BODY] = vec![
        vec![a],
        vec![a, s(Kind::Dc)],
        vec![a, s(Kind::Segno), b, s(Kind::Ds)],
        vec![a, s(Kind::Fine), b, s(Kind::DcFine)],
        vec![a, s(Kind::Segno), b, s(Kind::Fine), b, s(Kind::DsFine)],
        vec![a, s(Kind::ToCoda), b, s(Kind::DcCoda), s(Kind::Coda), b],
        vec![a, s(Kind::Segno), b, s(Kind::ToCoda), b, s(Kind::DsCoda), s(Kind::Coda), b],
    ];
    for e in [P, G, C] {
        rules[ANY].push(vec![Rule(RUN + e)]);
        rules[ANY_FIRST].push(vec![Rule(FIRST + e)]);
        rules[RUN + e] = vec![vec![Rule(ITEM + e)], vec![b, Rule(ITEM + e)]];
        rules[FIRST + e] = vec![vec![Rule(FIRST_ITEM + e)], vec![a, Rule(ITEM + e)]];
    }
    rules[ITEM + P].push(vec![s(Kind::Block)]);
    for e in [P, C] {
        rules[ITEM + P].push(vec![s(Kind::Left), Rule(RUN + e), s(Kind::Right)]);
        rules[FIRST_ITEM + P].push(vec![Rule(FIRST + e), s(Kind::Right)]);
    }
    rules[ITEM + C].push(vec![s(Kind::Left), Rule(RUN + G), s(Kind::Right)]);
    rules[FIRST_ITEM + C].push(vec![Rule(FIRST + G), s(Kind::Right)]);
    for e in [P, G] {
        rules[ITEM + G].push(vec![s(Kind::Left), Rule(RUN + e), Rule(ENDINGS)]);
        rules[FIRST_ITEM + G].push(vec![Rule(FIRST + e), Rule(ENDINGS)]);
    }
    let ending = [s(Kind::Open), b, s(Kind::Close)];
    let mut two = ending.to_vec();
    two.push(s(Kind::Right));
    let mut more = two.clone();
    two.extend(ending);
    more.push(Rule(ENDINGS));
    rules[ENDINGS] = vec![two, more];
    for e in [P, G, C] {
        rules[FIRST_ITEM + e].push(vec![Rule(ITEM + e)]);
    }
    rules
}

// A rule, how far it is read, and where it began.
#[derive(Clone, Copy, PartialEq, Eq, Hash)]
struct Item {
    rule: usize,
    way: usize,
    dot: usize,
    from: usize,
}

fn close(chart: &mut Vec<HashSet<Item>>, rules: &[Vec<Vec<Symbol>>], at: usize) {
    let mut work: Vec<Item> = chart[at].iter().copied().collect();
    while let Some(item) = work.pop() {
        let mut fresh = Vec::new();
        match rules[item.rule][item.way].get(item.dot) {
            Some(Symbol::Rule(r)) => {
                for way in 0..rules[*r].len() {
                    fresh.push(Item { rule: *r, way, dot: 0, from: at });
                }
            }
            Some(Symbol::Sign(_)) => {}
            None => {
                for waiting in &chart[item.from] {
                    if rules[waiting.rule][waiting.way].get(waiting.dot) == Some(&Symbol::Rule(item.rule)) {
                        fresh.push(Item { dot: waiting.dot + 1, ..*waiting });
                    }
                }
            }
        }
        for f in fresh {
            if chart[at].insert(f) {
                work.push(f);
            }
        }
    }
}

// The place of refusal 4, or none where the signs are a score.
pub fn refused_at(signs: &[Sign]) -> Option<u64> {
    let rules = grammar();
    let mut chart = vec![HashSet::new()];
    for way in 0..rules[SCORE].len() {
        chart[0].insert(Item { rule: SCORE, way, dot: 0, from: 0 });
    }
    close(&mut chart, &rules, 0);
    for (i, sign) in signs.iter().enumerate() {
        let wanted = Symbol::Sign(kind(*sign));
        let next: HashSet<Item> =
            chart[i].iter().filter(|x| rules[x.rule][x.way].get(x.dot) == Some(&wanted)).map(|x| Item { dot: x.dot + 1, ..*x }).collect();
        if next.is_empty() {
            return Some(i as u64);
        }
        chart.push(next);
        close(&mut chart, &rules, i + 1);
    }
    let whole = chart[signs.len()].iter().any(|x| x.rule == SCORE && x.from == 0 && x.dot == rules[SCORE][x.way].len());
    if whole { None } else { Some(signs.len() as u64) }
}
