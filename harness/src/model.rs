//! A sheet in parts, which can be written down wrongly at every place: damage is a change of the model, so that a damaged
//! sheet can be made smaller part by part too.

use oracle::{AIDS, EIDS, EId};

#[derive(Clone, Debug, PartialEq)]
pub struct Attr {
    pub id: u16,
    pub kind: u8,
    pub zero: u8,
    /// What the length field says; None: the value's length.
    pub length: Option<u16>,
    pub value: Vec<u8>,
}

#[derive(Clone, Debug, PartialEq)]
pub struct Node {
    pub depth: u8,
    pub tag: u8,
    /// What the attribute count says; None: the truth.
    pub count: Option<u8>,
    pub zero: u8,
    pub font_size: u32,
    pub attrs: Vec<Attr>,
    /// Bytes behind the attributes, inside the record.
    pub tail: Vec<u8>,
    /// The record is cut to so many bytes.
    pub keep: Option<usize>,
    /// Bytes before the record that belong to no record.
    pub gap: Vec<u8>,
    /// Added to the pair's offset and length.
    pub offset_error: u32,
    pub length_error: u32,
}

#[derive(Clone, Debug, PartialEq)]
pub struct Sheet {
    pub units: [u8; 2],
    pub has_box: u8,
    pub zero: u8,
    pub object_box: [u32; 4],
    pub view_box: [u32; 2],
    pub dpi: u32,
    pub font_size: u32,
    pub lengths: [(u8, u64); 4],
    /// What the node count says; None: the truth.
    pub count: Option<u16>,
    pub nodes: Vec<Node>,
    /// Bytes behind the last record.
    pub tail: Vec<u8>,
    /// The sheet is cut to so many bytes.
    pub keep: Option<usize>,
}

pub const ABSENT: (u8, u64) = (255, 0);

pub fn tag(e: EId) -> u8 {
    e as u8 + 1
}

impl Attr {
    pub fn new(id: u16, kind: u8, value: Vec<u8>) -> Attr {
        Attr { id, kind, zero: 0, length: None, value }
    }
}

impl Node {
    pub fn new(depth: u8, tag: u8) -> Node {
        Node {
            depth,
            tag,
            count: None,
            zero: 0,
            font_size: 0,
            attrs: Vec::new(),
            tail: Vec::new(),
            keep: None,
            gap: Vec::new(),
            offset_error: 0,
            length_error: 0,
        }
    }

    pub fn fe(e: EId) -> Node {
        Node::new(0, tag(e))
    }

    /// Puts an attribute in its place by id; one of the same id goes.
    pub fn set(&mut self, a: Attr) {
        let at = self.attrs.partition_point(|b| b.id < a.id);
        if self.attrs.get(at).is_some_and(|b| b.id == a.id) {
            self.attrs[at] = a;
        } else {
            self.attrs.insert(at, a);
        }
    }

    pub fn record(&self) -> Vec<u8> {
        let count = self.count.unwrap_or(self.attrs.len() as u8);
        let mut r = vec![self.depth, self.tag, count, self.zero];
        r.extend(self.font_size.to_le_bytes());
        for a in &self.attrs {
            r.extend(a.id.to_le_bytes());
            r.extend([a.kind, a.zero]);
            r.extend(a.length.unwrap_or(a.value.len() as u16).to_le_bytes());
            r.extend(&a.value);
        }
        r.extend(&self.tail);
        if let Some(n) = self.keep {
            r.truncate(n);
        }
        r
    }
}

impl Sheet {
    /// User space twice, no box, view box 2 by 1, 96 dpi, font size 0, plain 0 0 2 1.
    pub fn plain(nodes: Vec<Node>) -> Sheet {
        Sheet {
            units: [0, 0],
            has_box: 0,
            zero: 0,
            object_box: [0; 4],
            view_box: [2f32.to_bits(), 1f32.to_bits()],
            dpi: 96f32.to_bits(),
            font_size: 0,
            lengths: [0.0f64, 0.0, 2.0, 1.0].map(|n| (0, n.to_bits())),
            count: None,
            nodes,
            tail: Vec::new(),
            keep: None,
        }
    }

    pub fn set_box(&mut self, b: [f32; 4]) {
        self.has_box = 1;
        self.object_box = b.map(f32::to_bits);
    }

    pub fn set_region(&mut self, r: [f64; 4]) {
        self.lengths = r.map(|n| (0, n.to_bits()));
    }

    pub fn bytes(&self) -> Vec<u8> {
        let mut b = vec![self.units[0], self.units[1], self.has_box, self.zero];
        for n in self.object_box.iter().chain(&self.view_box).chain([&self.dpi, &self.font_size]) {
            b.extend(n.to_le_bytes());
        }
        for (unit, bits) in self.lengths {
            b.push(unit);
            b.extend(bits.to_le_bytes());
        }
        b.extend(self.count.unwrap_or(self.nodes.len() as u16).to_le_bytes());
        let records: Vec<Vec<u8>> = self.nodes.iter().map(Node::record).collect();
        let mut at = 74 + 8 * records.len();
        for (n, r) in self.nodes.iter().zip(&records) {
            at += n.gap.len();
            b.extend((at as u32).wrapping_add(n.offset_error).to_le_bytes());
            b.extend((r.len() as u32).wrapping_add(n.length_error).to_le_bytes());
            at += r.len();
        }
        for (n, r) in self.nodes.iter().zip(&records) {
            b.extend(&n.gap);
            b.extend(r);
        }
        b.extend(&self.tail);
        if let Some(n) = self.keep {
            b.truncate(n);
        }
        b
    }
}

/// The sheet with every typed list as the numbers that it is read as: kind 3. None: a typed list doesn't pass.
pub fn twin(s: &Sheet) -> Option<Sheet> {
    let mut twin = s.clone();
    for a in twin.nodes.iter_mut().flat_map(|n| &mut n.attrs).filter(|a| a.kind == 7) {
        let numbers = oracle::typed::read(&a.value).ok()?;
        *a = Attr { kind: 3, value: numbers.iter().flat_map(|n| n.to_le_bytes()).collect(), ..a.clone() };
    }
    Some(twin)
}

fn number32(bits: u32) -> String {
    format!("{:?}", f32::from_bits(bits))
}

fn length_text(unit: u8, bits: u64) -> String {
    const UNITS: [&str; 10] = ["", "em", "ex", "px", "in", "cm", "mm", "pt", "pc", "%"];
    match UNITS.get(unit as usize) {
        Some(u) => format!("{:?}{}", f64::from_bits(bits), u),
        None => format!("unit {} bits {:#x}", unit, bits),
    }
}

fn u32s(v: &[u8]) -> Vec<u32> {
    v.chunks_exact(4).map(|c| u32::from_le_bytes(c.try_into().unwrap())).collect()
}

fn value_text(a: &Attr) -> String {
    let v = &a.value;
    match (a.kind, v.len()) {
        (0, 0) => "unreadable".to_string(),
        (1, _) => match std::str::from_utf8(v) {
            Ok(t) => format!("{:?}", t),
            Err(_) => format!("\"{}\" (not UTF-8)", v.escape_ascii()),
        },
        (2, 4) => number32(u32s(v)[0]),
        (3, n) if n % 4 == 0 && n <= 96 => {
            format!("[{}]", u32s(v).into_iter().map(number32).collect::<Vec<_>>().join(" "))
        }
        (3, n) => format!("a list of {} bytes", n),
        (4, 9) => length_text(v[0], u64::from_le_bytes(v[1..].try_into().unwrap())),
        (5, 4) => format!("colour {:?}", v),
        (7, n) if n <= 400 => format!("typed \"{}\"", v.escape_ascii()),
        (7, n) => format!("typed \"{}\" and so on, {} bytes", v[..100].escape_ascii(), n),
        (6, 27) => v
            .chunks(9)
            .map(|c| match c[0] {
                1 => format!("{:?}", f64::from_bits(u64::from_le_bytes(c[1..].try_into().unwrap()))),
                n => format!("try {}", n),
            })
            .collect::<Vec<_>>()
            .join(", "),
        (k, n) => format!("kind {} of {} bytes {:02x?}", k, n, &v[..n.min(32)]),
    }
}

/// The sheet for a reader; what is not as in the plain sheet only.
impl std::fmt::Display for Sheet {
    fn fmt(&self, f: &mut std::fmt::Formatter) -> std::fmt::Result {
        let plain = Sheet::plain(Vec::new());
        let units = ["userSpaceOnUse", "objectBoundingBox", "absent"];
        let unit = |u: u8| units.get(u as usize).map_or(format!("units {}", u), |s| s.to_string());
        writeln!(f, "filterUnits {}, primitiveUnits {}", unit(self.units[0]), unit(self.units[1]))?;
        if self.has_box != 0 || self.object_box != [0; 4] {
            writeln!(f, "box (flag {}) {}", self.has_box, self.object_box.map(number32).join(" "))?;
        }
        writeln!(
            f,
            "view box {}, dpi {}, font size {}, region {}",
            self.view_box.map(number32).join(" "),
            number32(self.dpi),
            number32(self.font_size),
            self.lengths.map(|(u, n)| length_text(u, n)).join(" ")
        )?;
        if (self.zero, self.count, self.keep, self.tail.len()) != (0, plain.count, plain.keep, 0) {
            writeln!(
                f,
                "zero byte {}, count {:?}, cut to {:?}, tail of {} bytes",
                self.zero,
                self.count,
                self.keep,
                self.tail.len()
            )?;
        }
        for n in &self.nodes {
            let name = match n.tag {
                0 => "no tag".to_string(),
                t => EIDS.get(t as usize - 1).map_or(format!("tag {}", t), |e| e.to_string()),
            };
            write!(f, "{}{}", "    ".repeat(1 + n.depth.min(3) as usize), name)?;
            if n.depth > 1 {
                write!(f, " (depth {})", n.depth)?;
            }
            if n.font_size != 0 {
                write!(f, " font size {}", number32(n.font_size))?;
            }
            for a in &n.attrs {
                let id = AIDS.get(a.id as usize).map_or(format!("id {}", a.id), |i| i.to_string());
                write!(f, " {}={}", id, value_text(a))?;
                if a.zero != 0 || a.length.is_some() {
                    write!(f, " (zero {}, length {:?})", a.zero, a.length)?;
                }
            }
            let bare = Node { attrs: n.attrs.clone(), font_size: n.font_size, ..Node::new(n.depth, n.tag) };
            if *n != bare {
                write!(
                    f,
                    " (count {:?}, zero {}, tail {}, cut to {:?}, gap {}, pair off by {} {})",
                    n.count,
                    n.zero,
                    n.tail.len(),
                    n.keep,
                    n.gap.len(),
                    n.offset_error as i32,
                    n.length_error as i32
                )?;
            }
            writeln!(f)?;
        }
        Ok(())
    }
}
