//! The questions of one case, each put to both.
use crate::bytes::image_refusal;
use crate::damage;
use crate::judge::{Held, Judge, Source};
use crate::lent::Lent;
use crate::questions::{random_lookup, Grower};
use crate::random::Random;
use crate::records::BLOCK;
use crate::said::Said;
use crate::theirs::{self, Over};
use crate::words::{Lookup, Words, TABLE_WORDS, TWINS};
use oracle::{formula, image};

pub struct Asker<'a> {
    pub judge: &'a mut Judge,
    pub random: &'a mut Random,
}

impl Asker<'_> {
    /// An image compiled by both; what it is compiled to by the Rust.
    pub fn compile(&mut self, bytes: &[u8]) -> Option<Over> {
        let room = match self.random.below(20) {
            0 => *self.random.pick(&[0, 1, 16, 7696, 9295]),
            1..=4 => TABLE_WORDS + self.random.below(64),
            _ => TABLE_WORDS,
        };
        let kept = bytes.to_vec();
        let mut lent = Lent::new(self.random, room, 0);
        lent.compile(bytes);
        let (source, said, over) = self.compile_by_rust(bytes, room);
        let held = Held {
            what: "compile",
            source,
            said: &said,
            written: over.as_ref().map_or(&[], |over| &over.table),
            kept: kept == bytes,
            size: bytes.len(),
        };
        self.judge.hold(held, &mut lent, || {
            format!("compile, table of {room} words, {}", shown(bytes))
        });
        // The questions go over what must have been written, and over a longer
        // table where a longer one was lent.
        over.map(|mut over| {
            over.table.extend(&lent.table[TABLE_WORDS..]);
            over
        })
    }

    fn compile_by_rust(&mut self, bytes: &[u8], room: usize) -> (Source, Said, Option<Over>) {
        let read = image::read(bytes);
        // The oracle's own reader sorts out the same images, by the same numbers.
        let number = |number| Said::refused(number, 0, &[]);
        let sound = image_refusal(bytes, TABLE_WORDS).map_or(0, |said| said.refusal());
        let fault = read.as_ref().err().copied().unwrap_or(0);
        self.judge
            .hold_reading(&number(sound), &number(fault), || shown(bytes));
        let catalog = match (image_refusal(bytes, room), read) {
            (None, Ok(catalog)) => catalog,
            (refusal, _) => return (Source::Text, refusal.unwrap_or(number(fault)), None),
        };
        match Over::compile(bytes, catalog) {
            Ok(over) => (Source::Rust, Said::compiled(), Some(over)),
            Err(answer) => {
                let said = Said::of(&answer).expect("each refusal has its number and place");
                (Source::Rust, said, None)
            }
        }
    }

    /// The rows in force, and as many lookups more.
    pub fn ask_lookups(&mut self, over: &Over, count: usize) {
        if over.kinds() == 0 {
            return;
        }
        for row in over.rows().chunks(4) {
            let lookup = Lookup::Combine(row[1] as u8 + 4, row[0] as u16, row[2] as u16);
            self.ask_lookup(over, lookup);
        }
        for _ in 0..count {
            let lookup = random_lookup(self.random, over.kinds(), &over.plain);
            self.ask_lookup(over, lookup);
        }
    }

    /// Formulas, and some of them damaged.
    pub fn ask_formulas(&mut self, over: &Over, count: usize) {
        if over.kinds() == 0 {
            return;
        }
        let mut grower = Grower::new(self.random, over.kinds());
        for _ in 0..count {
            let formula = grower.next(self.random);
            let refused = self.ask_formula(over, &formula);
            if self.random.percent(30) {
                let damaged = damage::damaged_formula(self.random, &formula);
                self.ask_formula(over, &damaged);
            }
            grower.learn(self.random, formula, refused);
        }
    }

    fn twins(&mut self) -> usize {
        TWINS + [0, 0, 0, 1, 8][self.random.below(5)]
    }

    fn ask_lookup(&mut self, over: &Over, lookup: Lookup) {
        let with_rows = !self.random.percent(15);
        let (words, registry) = over.lent(with_rows, self.twins());
        let answer = theirs::look_up(registry, lookup);
        let said = Said::of(&answer).expect("an answer within the limits");
        let request = || format!("{}, rows {with_rows}, {}", told(lookup), shown(&over.image));
        self.judge
            .hold_reading(&words.lookup(lookup), &said, request);
        self.look_up(Source::Rust, &said, words, lookup, over, request);
    }

    /// A lookup by ours, held to what it must be.
    fn look_up(
        &mut self,
        source: Source,
        said: &Said,
        words: Words<'_>,
        lookup: Lookup,
        over: &Over,
        request: impl FnOnce() -> String,
    ) {
        let kept = (words.table.to_vec(), words.rows.to_vec());
        let mut lent = Lent::new(self.random, 0, words.twins);
        lent.look_up(words, lookup);
        let held = Held {
            what: what(lookup),
            source,
            said,
            written: &[],
            kept: kept.0 == words.table && kept.1 == words.rows,
            size: over.image.len() + words.rows.len(),
        };
        self.judge.hold(held, &mut lent, request);
    }

    /// True where the formula is refused.
    fn ask_formula(&mut self, over: &Over, bytes: &[u8]) -> bool {
        let with_rows = !self.random.percent(15);
        let (words, registry) = over.lent(with_rows, self.twins());
        let request = || {
            let image = shown(&over.image);
            format!("formula {}, rows {with_rows}, {image}", hex(bytes))
        };
        let read = words.formula(bytes);
        let (source, said) = match Said::of(&formula::run(registry, bytes)) {
            Some(said) => {
                self.judge.hold_reading(&read, &said, request);
                (Source::Rust, said)
            }
            // 50, and 41 where the run comes to it.
            None => (Source::Text, read),
        };
        self.run(source, &said, words, bytes, over, request);
        said.refusal() != 0
    }

    /// A formula run by ours, held to what it must come to.
    fn run(
        &mut self,
        source: Source,
        said: &Said,
        words: Words<'_>,
        bytes: &[u8],
        over: &Over,
        request: impl FnOnce() -> String,
    ) {
        let kept = (words.table.to_vec(), words.rows.to_vec(), bytes.to_vec());
        let mut lent = Lent::new(self.random, 0, words.twins);
        lent.run(words, bytes);
        let held = Held {
            what: "formula",
            source,
            said,
            written: &[],
            kept: kept.0 == words.table && kept.1 == words.rows && kept.2 == bytes,
            size: over.image.len() + words.rows.len() + bytes.len(),
        };
        self.judge.hold(held, &mut lent, request);
    }

    /// Short and damaged words, other rows, indexes and codes out of range:
    /// what the Rust has no word for.
    pub fn ask_amiss(&mut self, over: &Over) {
        // Of no kinds at all, the first is past the end.
        let kinds = over.kinds().max(1);
        let mut grower = Grower::new(self.random, kinds);
        for _ in 0..12 {
            let (table, rows, twins) = self.amiss(over);
            let words = Words {
                table: &table,
                rows: &rows,
                twins,
            };
            for _ in 0..4 {
                let lookup = if self.random.percent(60) {
                    random_lookup(self.random, kinds, &over.plain)
                } else {
                    damage::odd_lookup(self.random, kinds)
                };
                let said = words.lookup(lookup);
                self.look_up(Source::Text, &said, words, lookup, over, || {
                    changed(&told(lookup), over, words)
                });
            }
            let mut formula = grower.next(self.random);
            if self.random.percent(20) {
                formula = damage::damaged_formula(self.random, &formula);
            }
            let said = words.formula(&formula);
            self.run(Source::Text, &said, words, &formula, over, || {
                changed(&format!("formula {}", hex(&formula)), over, words)
            });
            grower.learn(self.random, formula, said.refusal() != 0);
        }
    }

    /// A table, rows and the length of a twin list, of which mostly one is
    /// other than the compilation's.
    fn amiss(&mut self, over: &Over) -> (Vec<u32>, Vec<u32>, usize) {
        let mut table = over.table.clone();
        let mut rows = over.rows().to_vec();
        let mut twins = TWINS;
        match self.random.below(8) {
            0 => table.truncate(*self.random.pick(&[0, 1, 15, 16, 7696, 9295])),
            1 => twins = *self.random.pick(&[0, 1, 120, 239]),
            2 | 3 => rows = damage::lent_rows(self.random, over.kinds().max(1)),
            4 => {}
            _ => damage::damage_table(self.random, &mut table),
        }
        // Two at once, to see which comes first.
        if self.random.percent(10) {
            twins = 239;
        }
        (table, rows, twins)
    }
}

fn told(lookup: Lookup) -> String {
    match lookup {
        Lookup::Combine(code, left, right) => format!("combine {code} {left} {right}"),
        Lookup::Power(base, num, den) => format!("power {base} {num} {den}"),
        Lookup::Inexact(base) => format!("power {base} inexact"),
    }
}

fn what(lookup: Lookup) -> &'static str {
    match lookup {
        Lookup::Combine(2..=3, ..) => "sum",
        Lookup::Combine(..) => "product",
        Lookup::Power(..) => "power",
        Lookup::Inexact(_) => "inexact power",
    }
}

fn hex(bytes: &[u8]) -> String {
    bytes.iter().map(|byte| format!("{byte:02x}")).collect()
}

/// An image in hex where that is short.
fn shown(image: &[u8]) -> String {
    if image.len() > 3 * BLOCK {
        format!("image of {} bytes", image.len())
    } else {
        format!("image {}", hex(image))
    }
}

/// A request over damaged words: what differs from the compilation's.
fn changed(request: &str, over: &Over, words: Words<'_>) -> String {
    let changed: Vec<String> = (over.table.iter().zip(words.table))
        .enumerate()
        .filter(|(_, (old, new))| old != new)
        .map(|(place, (_, new))| format!("{place}: {new}"))
        .collect();
    format!(
        "{request}, table of {} words, changed [{}], rows {:?}, {} twin entries, {}",
        words.table.len(),
        changed.join(", "),
        words.rows,
        words.twins,
        shown(&over.image)
    )
}
