// Signs of a text, read straight from document 01: every spelling is tried at a byte, and the longest that fits is taken.

#[derive(Clone, Copy, PartialEq, Eq, Debug)]
pub enum Sign {
    Block(u64, u64),
    Time(u64, u64),
    Left,
    Right,
    Open,
    Close,
    Dc,
    DcCoda,
    DcFine,
    Ds,
    DsCoda,
    DsFine,
    Segno,
    Coda,
    ToCoda,
    Fine,
}

const FIXED: [(&str, Sign); 14] = [
    ("|:", Sign::Left),
    (":|", Sign::Right),
    ("[", Sign::Open),
    ("]", Sign::Close),
    ("DC", Sign::Dc),
    ("DC.Coda", Sign::DcCoda),
    ("DC.Fine", Sign::DcFine),
    ("DS", Sign::Ds),
    ("DS.Coda", Sign::DsCoda),
    ("DS.Fine", Sign::DsFine),
    ("Segno", Sign::Segno),
    ("Coda", Sign::Coda),
    ("ToCoda", Sign::ToCoda),
    ("Fine", Sign::Fine),
];

// A number at the front of the bytes: its value and how many bytes it takes.
fn number(bytes: &[u8]) -> Option<(u64, usize)> {
    let digits = bytes.iter().take_while(|b| b.is_ascii_digit()).count();
    if digits == 0 || digits > 6 || (digits > 1 && bytes[0] == b'0') {
        return None;
    }
    let text = std::str::from_utf8(&bytes[..digits]).unwrap();
    Some((text.parse().unwrap(), digits))
}

// `(name,` spaces number `,` spaces number `)`.
fn numbered(bytes: &[u8], name: &str) -> Option<(u64, u64, usize)> {
    let head = format!("({},", name);
    if !bytes.starts_with(head.as_bytes()) {
        return None;
    }
    let mut at = head.len();
    let mut values = [0; 2];
    for (i, end) in [b',', b')'].iter().enumerate() {
        at += bytes[at..].iter().take_while(|b| **b == b' ').count();
        let (value, width) = number(&bytes[at..])?;
        values[i] = value;
        at += width;
        if bytes.get(at) != Some(end) {
            return None;
        }
        at += 1;
    }
    Some((values[0], values[1], at))
}

fn longest(bytes: &[u8]) -> Option<(Sign, usize)> {
    let mut found: Vec<(Sign, usize)> = FIXED.iter().filter(|(w, _)| bytes.starts_with(w.as_bytes())).map(|(w, s)| (*s, w.len())).collect();
    found.extend(numbered(bytes, "b").map(|(k, l, n)| (Sign::Block(k, l), n)));
    found.extend(numbered(bytes, "ts").map(|(m, n, w)| (Sign::Time(m, n), w)));
    found.into_iter().max_by_key(|(_, n)| *n)
}

// The signs of a text, or the refusal's number and place.
pub fn read(text: &[u8]) -> Result<Vec<Sign>, (u32, u64)> {
    if text.len() > 16384 {
        return Err((1, 16384));
    }
    let mut signs = Vec::new();
    let mut at = 0;
    while at < text.len() {
        if [32, 9, 10, 13].contains(&text[at]) {
            at += 1;
            continue;
        }
        match longest(&text[at..]) {
            Some((sign, width)) => {
                signs.push(sign);
                at += width;
            }
            None => return Err((2, at as u64)),
        }
    }
    if signs.len() > 1024 {
        return Err((3, 1024));
    }
    Ok(signs)
}

pub fn spell(sign: Sign) -> String {
    match sign {
        Sign::Block(k, l) => format!("(b,{},{})", k, l),
        Sign::Time(m, n) => format!("(ts,{},{})", m, n),
        other => FIXED.iter().find(|(_, s)| *s == other).unwrap().0.to_string(),
    }
}
