//! Makes a failing sheet smaller, part by part, as long as it fails.

use crate::model::{Node, Sheet, twin};

pub fn shrink(start: Sheet, fails: &mut dyn FnMut(&Sheet) -> bool) -> Sheet {
    let mut s = Shrinker { best: start, fails, tries: 0 };
    loop {
        let before = s.best.clone();
        s.nodes();
        s.attributes();
        s.header();
        s.values();
        if s.best == before || s.tries > LIMIT {
            return s.best;
        }
    }
}

const LIMIT: usize = 200_000;

struct Shrinker<'a> {
    best: Sheet,
    fails: &'a mut dyn FnMut(&Sheet) -> bool,
    tries: usize,
}

impl Shrinker<'_> {
    fn attempt(&mut self, change: impl FnOnce(&mut Sheet)) -> bool {
        if self.tries > LIMIT {
            return false;
        }
        let mut next = self.best.clone();
        change(&mut next);
        if next == self.best {
            return false;
        }
        self.tries += 1;
        if (self.fails)(&next) {
            self.best = next;
            return true;
        }
        false
    }

    /// Takes nodes away: halves first, then ever smaller runs.
    fn nodes(&mut self) {
        let mut run = self.best.nodes.len();
        while run > 0 {
            let mut at = 0;
            while at < self.best.nodes.len() {
                let end = (at + run).min(self.best.nodes.len());
                if !self.attempt(|s| drop(s.nodes.drain(at..end))) {
                    at += run;
                }
            }
            run /= 2;
        }
    }

    fn attributes(&mut self) {
        for n in 0..self.best.nodes.len() {
            let mut a = 0;
            while a < self.best.nodes[n].attrs.len() {
                if !self.attempt(|s| drop(s.nodes[n].attrs.remove(a))) {
                    a += 1;
                }
            }
            self.attempt(|s| {
                let bare = &mut s.nodes[n];
                *bare = Node { attrs: std::mem::take(&mut bare.attrs), ..Node::new(bare.depth, bare.tag) };
            });
            self.attempt(|s| s.nodes[n].font_size = 0);
            self.attempt(|s| s.nodes[n].count = None);
            self.attempt(|s| s.nodes[n].keep = None);
            self.attempt(|s| s.nodes[n].tail.clear());
            self.attempt(|s| s.nodes[n].gap.clear());
            self.attempt(|s| s.nodes[n].offset_error = 0);
            self.attempt(|s| s.nodes[n].length_error = 0);
        }
    }

    fn header(&mut self) {
        let plain = Sheet::plain(Vec::new());
        self.attempt(|s| *s = Sheet { nodes: s.nodes.clone(), ..plain.clone() });
        self.attempt(|s| s.tail.clear());
        self.attempt(|s| s.tail.truncate(s.tail.len() / 2));
        self.attempt(|s| s.keep = None);
        self.attempt(|s| s.count = None);
        self.attempt(|s| s.zero = 0);
        self.attempt(|s| s.units = plain.units);
        self.attempt(|s| s.units[0] = 0);
        self.attempt(|s| s.units[1] = 0);
        self.attempt(|s| (s.has_box, s.object_box) = (0, [0; 4]));
        if self.best.has_box == 1 {
            self.attempt(|s| s.set_box([0.0, 0.0, 1.0, 1.0]));
        }
        self.attempt(|s| s.view_box = plain.view_box);
        self.attempt(|s| s.dpi = plain.dpi);
        self.attempt(|s| s.font_size = 0);
        for i in 0..4 {
            self.attempt(|s| s.lengths[i] = plain.lengths[i]);
            self.attempt(|s| s.lengths[i].0 = 0);
        }
    }

    fn values(&mut self) {
        // lists as numbers, if what differs isn't in their text
        self.attempt(|s| *s = twin(s).unwrap_or_else(|| s.clone()));
        for n in 0..self.best.nodes.len() {
            for a in 0..self.best.nodes[n].attrs.len() {
                self.attempt(|s| s.nodes[n].attrs[a].zero = 0);
                self.attempt(|s| s.nodes[n].attrs[a].length = None);
                self.value(n, a);
            }
        }
    }

    fn value(&mut self, n: usize, a: usize) {
        let kind = self.best.nodes[n].attrs[a].kind;
        // shorter, where the kind has no length of its own
        if matches!(kind, 1 | 3 | 7) {
            let step = if kind == 3 { 4 } else { 1 };
            let mut run = self.best.nodes[n].attrs[a].value.len() / step;
            while run > 0 {
                let mut at = 0;
                while at < self.best.nodes[n].attrs[a].value.len() {
                    let end = (at + run * step).min(self.best.nodes[n].attrs[a].value.len());
                    if !self.attempt(|s| drop(s.nodes[n].attrs[a].value.drain(at..end))) {
                        at += run * step;
                    }
                }
                run /= 2;
            }
        }
        // plainer: zeros, then ones where a number stands
        let length = self.best.nodes[n].attrs[a].value.len();
        let (step, ones): (usize, &[u8]) = match kind {
            1 => (1, b"a"),
            2 | 3 => (4, &[0, 0, 0x80, 0x3f]),
            5 => (1, &[255]),
            7 => (1, b"1"),
            _ => return,
        };
        for at in (0..length / step).map(|i| i * step) {
            let zero = vec![0; step];
            if matches!(kind, 1 | 7)
                || !self.attempt(|s| s.nodes[n].attrs[a].value[at..at + step].copy_from_slice(&zero))
            {
                let now = &self.best.nodes[n].attrs[a].value[at..at + step];
                if now.iter().any(|b| *b != 0) {
                    self.attempt(|s| s.nodes[n].attrs[a].value[at..at + step].copy_from_slice(ones));
                }
            }
        }
    }
}
