//! Cases for comparing two engines of Waterbook.
//!
//! `cases SEED COUNT DIR` writes COUNT folders DIR/00001, DIR/00002 and so on, each with
//! `card.dat` (which some cases leave out) and `feed.bin`. A seed always gives the same cases.
//! The plans take turns, so a few hundred cases hold every refusal that a card and a feed can
//! meet.

use std::fs;
use std::io::{self, ErrorKind};
use std::ops::RangeInclusive;
use std::path::Path;
use std::process::ExitCode;

const N: u64 = 1 << 20;
const MOST_RAIN: u64 = 15_000_000;
const MOST_DEMAND: u64 = 1_000_000;
const BASIN_CEILING: u64 = 8_000_000_000_000;
const MOST_BOOKED: u64 = 1_000_000_000_000_000;

// ---- Chance ----

/// Splitmix64.
struct Rng(u64);

impl Rng {
    fn next(&mut self) -> u64 {
        self.0 = self.0.wrapping_add(0x9e37_79b9_7f4a_7c15);
        let mut z = self.0;
        z = (z ^ (z >> 30)).wrapping_mul(0xbf58_476d_1ce4_e5b9);
        z = (z ^ (z >> 27)).wrapping_mul(0x94d0_49bb_1331_11eb);
        z ^ (z >> 31)
    }

    fn within(&mut self, range: RangeInclusive<u64>) -> u64 {
        let (least, most) = (*range.start(), *range.end());
        least + self.next() % (most - least + 1)
    }

    /// Small figures as often as large ones.
    fn of_any_size(&mut self, range: RangeInclusive<u64>) -> u64 {
        let (least, most) = (*range.start(), *range.end());
        let bits = self.within(0..=u64::from((most - least + 1).ilog2()) + 1);
        least + (self.next() & ((1 << bits) - 1)) % (most - least + 1)
    }

    fn below(&mut self, count: usize) -> usize {
        (self.next() % count as u64) as usize
    }

    fn one_in(&mut self, count: u64) -> bool {
        self.next().is_multiple_of(count)
    }

    fn pick<T: Copy>(&mut self, items: &[T]) -> T {
        items[self.below(items.len())]
    }

    fn byte(&mut self) -> u8 {
        self.next() as u8
    }

    fn shuffle<T>(&mut self, items: &mut [T]) {
        for i in (1..items.len()).rev() {
            let j = self.below(i + 1);
            items.swap(i, j);
        }
    }
}

// ---- Cards ----

struct Word {
    name: &'static str,
    least: u64,
    most: u64,
    /// What a card of a real basin might have.
    usual: RangeInclusive<u64>,
}

const fn word(name: &'static str, least: u64, most: u64, usual: RangeInclusive<u64>) -> Word {
    Word {
        name,
        least,
        most,
        usual,
    }
}

static WORDS: [Word; 14] = [
    word("AREA", 1, 5_000, 10..=3_000),
    word("IMPV", 0, 1_048_576, 0..=200_000),
    word("CEPSC", 0, 400_000, 30_000..=250_000),
    word("UZSN", 50_000, 2_000_000, 200_000..=1_500_000),
    word("LZSN", 2_000_000, 15_000_000, 4_000_000..=14_000_000),
    word("INFILT", 1_000, 500_000, 5_000..=80_000),
    word("INTFW", 100, 1_000, 100..=300),
    word("LZETP", 104_858, 943_718, 104_858..=500_000),
    word("DEEPFR", 0, 524_288, 0..=200_000),
    word("AGWETP", 0, 209_715, 0..=100_000),
    word("OVK", 1, 100_000, 100..=20_000),
    word("IFWK", 1, 1_048_576, 20_000..=300_000),
    word("GWK", 1, 1_048_576, 500..=30_000),
    word("CHK", 1, 1_048_576, 100_000..=900_000),
];

/// A figure for each word, in the order of `WORDS`.
#[derive(Clone)]
struct Figures([u64; WORDS.len()]);

impl Figures {
    fn of(mut choose: impl FnMut(&Word) -> u64) -> Figures {
        Figures(std::array::from_fn(|i| choose(&WORDS[i])))
    }

    fn usual(rng: &mut Rng) -> Figures {
        Figures::of(|word| rng.within(word.usual.clone()))
    }

    fn anywhere(rng: &mut Rng) -> Figures {
        Figures::of(|word| match rng.below(2) {
            0 => rng.within(word.least..=word.most),
            _ => rng.of_any_size(word.least..=word.most),
        })
    }

    fn at_ends(rng: &mut Rng) -> Figures {
        Figures::of(|word| rng.pick(&[word.least, word.most]))
    }

    fn near_ends(rng: &mut Rng) -> Figures {
        Figures::of(|word| match rng.below(3) {
            0 => word.least + rng.within(0..=2),
            1 => word.most - rng.within(0..=2),
            _ => rng.within(word.usual.clone()),
        })
    }

    fn any(rng: &mut Rng) -> Figures {
        match rng.below(4) {
            0 => Figures::usual(rng),
            1 => Figures::anywhere(rng),
            2 => Figures::at_ends(rng),
            _ => Figures::near_ends(rng),
        }
    }

    fn with(mut self, changes: &[(&str, u64)]) -> Figures {
        for &(name, figure) in changes {
            self.0[index(name)] = figure;
        }
        self
    }

    fn get(&self, name: &str) -> u64 {
        self.0[index(name)]
    }
}

fn index(name: &str) -> usize {
    WORDS
        .iter()
        .position(|word| word.name == name)
        .expect("a word of the card")
}

/// The records of a card, before they are joined.
struct Card(Vec<CardRecord>);

struct CardRecord {
    name: [u8; 8],
    figure: [u8; 12],
}

impl CardRecord {
    fn word(&self) -> Option<&'static Word> {
        WORDS.iter().find(|word| padded(word.name) == self.name)
    }

    fn set_figure(&mut self, figure: &str) {
        self.figure
            .copy_from_slice(format!("{figure:>12}").as_bytes());
    }
}

fn padded(name: &str) -> [u8; 8] {
    let mut bytes = [b' '; 8];
    bytes[..name.len()].copy_from_slice(name.as_bytes());
    bytes
}

impl Card {
    /// In any order, with blanks or zeros before the figures.
    fn new(rng: &mut Rng, figures: &Figures) -> Card {
        let zeros = rng.pick(&[0, 0, 3, 12]);
        let record = |(word, figure): (&Word, &u64)| {
            let width = rng.within(0..=zeros) as usize;
            let mut record = CardRecord {
                name: padded(word.name),
                figure: [b' '; 12],
            };
            record.set_figure(&format!("{figure:0>width$}"));
            record
        };
        let mut records: Vec<CardRecord> = WORDS.iter().zip(&figures.0).map(record).collect();
        if rng.one_in(2) {
            rng.shuffle(&mut records);
        }
        Card(records)
    }

    fn bytes(&self) -> Vec<u8> {
        let record = |record: &CardRecord| [&record.name[..], &record.figure[..]].concat();
        self.0.iter().flat_map(record).collect()
    }

    fn any_record(&mut self, rng: &mut Rng) -> &mut CardRecord {
        let i = rng.below(self.0.len());
        &mut self.0[i]
    }

    /// Refusal 2.
    fn damage_name(&mut self, rng: &mut Rng) {
        let record = self.any_record(rng);
        let end = record
            .name
            .iter()
            .position(|&byte| byte == b' ')
            .unwrap_or(8);
        match rng.below(12) {
            0 => record.name.make_ascii_lowercase(),
            1 => record.name[0] = record.name[0].to_ascii_lowercase(),
            2 => record.name = [b' '; 8],
            3 => record.name = [0; 8],
            4 => record.name.rotate_right(1),
            5 => record.name[end..].fill(b'\t'),
            6 => record.name[end..].fill(0),
            7 => record.name[end.saturating_sub(1)] = b' ',
            8 => record.name[end.min(7)] = b'S',
            9 => record.name[7] = rng.pick(b"\t\n\r0\xa0"),
            10 => record.name = padded(rng.pick(&["KS", "SNOW", "LENGTH", "AREAAREA", "X"])),
            _ => record.name[rng.below(8)] ^= 1 << rng.below(8),
        }
    }

    /// Refusal 3, unless both records had the same name before.
    fn repeat_name(&mut self, rng: &mut Rng) {
        let name = self.any_record(rng).name;
        self.any_record(rng).name = name;
    }

    /// Refusal 4.
    fn damage_figure(&mut self, rng: &mut Rng) {
        let record = self.any_record(rng);
        let figures = [
            "",
            "A",
            "0x10",
            "1e3",
            "+100",
            "-1",
            "1.0",
            "1,000",
            "1 000",
            "10 ",
            "1           ",
            "\t1000",
            "1000\t",
            "1000\n",
            "1000\0",
            "/",
            ":",
            "12345678901A",
            "A00000000001",
            "99999999999 ",
            " 1          ",
            "\u{a0}10",
        ];
        match rng.below(4) {
            0 => {
                let place = rng.below(12);
                record.figure[place] = rng.pick(b"\0\t\n\r!+,-./:;ANaz\x7f\x80\xb0\xff");
            }
            1 => {
                // The digits move left, and blanks follow them.
                let blanks = record
                    .figure
                    .iter()
                    .take_while(|&&byte| byte == b' ')
                    .count();
                record.figure.rotate_left(blanks);
                if blanks == 0 {
                    record.figure[11] = b' ';
                }
            }
            _ => {
                let figure = rng.pick(&figures).as_bytes();
                record.figure = [b' '; 12];
                record.figure[12 - figure.len()..].copy_from_slice(figure);
            }
        }
    }

    /// Refusal 5.
    fn leave_range(&mut self, rng: &mut Rng) {
        let record = self.any_record(rng);
        let Some(word) = record.word() else {
            return;
        };
        let below = word.least.checked_sub(1).unwrap_or(word.most + 1);
        let figure = match rng.below(8) {
            0 | 1 => below,
            2 | 3 => word.most + 1,
            4 => 999_999_999_999,
            5 => (1 << 32) + word.least,
            6 => word.most * 10,
            _ => rng.within(word.most + 1..=999_999_999_999),
        };
        record.set_figure(&figure.to_string());
    }

    /// One to three damages of any kind, so that the first on the card must be found.
    fn damage(&mut self, rng: &mut Rng) {
        for _ in 0..rng.within(1..=3) {
            match rng.below(4) {
                0 => self.damage_name(rng),
                1 => self.repeat_name(rng),
                2 => self.damage_figure(rng),
                _ => self.leave_range(rng),
            }
        }
    }
}

/// Refusal 1.
fn of_wrong_length(rng: &mut Rng, mut bytes: Vec<u8>) -> Vec<u8> {
    match rng.below(8) {
        0 => bytes.clear(),
        1 => bytes.truncate(279),
        2 => bytes.truncate(260),
        3 => bytes.push(b'\n'),
        4 => bytes.extend_from_within(..20),
        5 => bytes.extend_from_within(..),
        6 => bytes.truncate(rng.below(280)),
        _ => bytes.resize(281 + rng.below(5_000), b' '),
    }
    bytes
}

// ---- Feeds ----

const RECORD_BYTES: usize = 16;

#[derive(Default)]
struct Feed(Vec<u8>);

impl Feed {
    fn rain_on(&mut self, segment: u8, rain: u64, demand: u64) {
        let mut record = [0; RECORD_BYTES];
        record[0] = b'R';
        record[1] = segment;
        record[4..8].copy_from_slice(&(rain as u32).to_le_bytes());
        record[8..12].copy_from_slice(&(demand as u32).to_le_bytes());
        self.0.extend(record);
    }

    fn rain(&mut self, rain: u64, demand: u64) {
        self.rain_on(0, rain, demand);
    }

    fn plain(&mut self, letter: u8) {
        let mut record = [0; RECORD_BYTES];
        record[0] = letter;
        self.0.extend(record);
    }

    fn turn(&mut self) {
        self.plain(b'T');
    }

    fn close(&mut self) {
        self.plain(b'C');
    }

    /// The record that was added last.
    fn last(&mut self) -> &mut [u8] {
        let from = self.0.len() - RECORD_BYTES;
        &mut self.0[from..]
    }
}

/// Wet and dry spells, a turn each hour, a closing each day or now and then.
fn weather(rng: &mut Rng, feed: &mut Feed, hours: u64) {
    let heaviest = rng.pick(&[5_000, 100_000, 1_000_000, 15_000_000]);
    let thirst = rng.pick(&[0, 2_000, 20_000, 200_000, MOST_DEMAND]);
    let day = rng.pick(&[1, 7, 24, 24, 100]);
    let (mut wet, mut spell) = (rng.one_in(2), 0);
    for hour in 1..=hours {
        if spell == 0 {
            wet = !wet;
            spell = rng.within(1..=30);
        }
        spell -= 1;
        let rain = if wet {
            rng.of_any_size(0..=heaviest)
        } else {
            0
        };
        feed.rain(rain, rng.within(0..=thirst));
        feed.turn();
        if hour % day == 0 {
            feed.close();
        }
    }
}

/// A soaking, and then weeks that dry out.
fn drought(rng: &mut Rng, feed: &mut Feed) {
    for _ in 0..rng.within(1..=12) {
        feed.rain(rng.within(100_000..=8_000_000), 0);
        feed.turn();
    }
    let thirst = rng.pick(&[1, 1_000, 30_000, 300_000, MOST_DEMAND]);
    for _ in 0..rng.within(60..=180) {
        let drizzle = if rng.one_in(9) {
            rng.of_any_size(0..=20_000)
        } else {
            0
        };
        feed.rain(drizzle, rng.within(thirst / 2..=thirst));
        feed.turn();
    }
    feed.close();
}

/// Heavy rain hour after hour, with few turns.
fn monsoon(rng: &mut Rng, feed: &mut Feed) {
    let heavy = rng.pick(&[2_000_000, 7_000_000, MOST_RAIN]);
    let thirst = rng.pick(&[0, 0, 5_000]);
    for _ in 0..rng.within(60..=250) {
        feed.rain(rng.within(heavy / 2..=heavy), rng.within(0..=thirst));
        match rng.below(12) {
            0..=3 => feed.turn(),
            4 => feed.close(),
            _ => {}
        }
    }
    feed.turn();
    feed.close();
}

/// Rain in steps down, so that the first that is granted fills the segment to the brim and the
/// one before it was a unit too much. Refusals alter nothing, so the content need not be known.
fn to_the_brim(rng: &mut Rng, feed: &mut Feed) {
    for _ in 0..40 {
        feed.rain(rng.within(3_000_000..=5_000_000), 0);
    }
    // Each row leaves room for less than the next begins with.
    let rows = [
        (5_000_000, 300_000, 300_000),
        (340_000, 20_000, 20_000),
        (24_000, 1_500, 1_500),
        (2_400, 600, 100),
        (750, 0, 1),
    ];
    for (from, to, step) in rows {
        for down in 0..=(from - to) / step {
            feed.rain(from - step * down, 0);
        }
    }
    feed.turn();
    feed.close();
}

/// Amounts and segments at their limits and above.
fn limits(rng: &mut Rng, feed: &mut Feed) {
    let most = u64::from(u32::MAX);
    for _ in 0..rng.within(30..=120) {
        let segment = rng.pick(&[0, 0, 0, 0, 1, 2, 15, 16, 128, 255]);
        let rain = match rng.below(6) {
            0 => MOST_RAIN,
            1 => MOST_RAIN + 1,
            2 => rng.pick(&[1 << 24, 1 << 31, most - 1, most]),
            3 => rng.within(MOST_RAIN..=most),
            _ => rng.of_any_size(0..=MOST_RAIN),
        };
        let demand = match rng.below(6) {
            0 => MOST_DEMAND,
            1 => MOST_DEMAND + 1,
            2 => rng.pick(&[1 << 20, 100_000_000, 1 << 31, most]),
            3 => rng.within(MOST_DEMAND..=most),
            _ => rng.of_any_size(0..=MOST_DEMAND),
        };
        feed.rain_on(segment, rain, demand);
        if rng.one_in(3) {
            feed.turn();
        }
    }
    feed.close();
}

/// Letters that are none of the three, some with other faults in the record.
fn wrong_letters(rng: &mut Rng, feed: &mut Feed) {
    for _ in 0..rng.within(20..=80) {
        feed.rain(
            rng.of_any_size(0..=MOST_RAIN),
            rng.of_any_size(0..=MOST_DEMAND),
        );
        let letter = match rng.below(3) {
            0 => rng.byte(),
            _ => rng.pick(b"rtcQSUBDPWXY 0\0\n\xd2\xff"),
        };
        feed.plain(letter);
        if rng.one_in(3) {
            let place = rng.below(RECORD_BYTES);
            feed.last()[place] = rng.byte();
        }
        if rng.one_in(2) {
            feed.turn();
        }
    }
    feed.close();
}

/// Every byte of every kind of record is set once, alone, and then in twos.
fn set_bytes(rng: &mut Rng, feed: &mut Feed) {
    let plain = |rng: &mut Rng, feed: &mut Feed, letter| match letter {
        b'R' => feed.rain(rng.of_any_size(0..=100_000), rng.of_any_size(0..=5_000)),
        letter => feed.plain(letter),
    };
    for letter in *b"RTC" {
        for place in 1..RECORD_BYTES {
            plain(rng, feed, letter);
            feed.last()[place] = rng.pick(&[1, 0x80, 0xff, 0x20, 0x30]);
        }
    }
    for _ in 0..60 {
        let letter = rng.pick(b"RTC");
        plain(rng, feed, letter);
        for _ in 0..2 {
            let place = 1 + rng.below(RECORD_BYTES - 1);
            feed.last()[place] = rng.byte();
        }
    }
    feed.turn();
    feed.close();
}

fn turns_and_closings(rng: &mut Rng, feed: &mut Feed) {
    for _ in 0..rng.within(80..=300) {
        match rng.below(10) {
            0 | 1 => feed.rain(
                rng.of_any_size(0..=MOST_RAIN),
                rng.of_any_size(0..=MOST_DEMAND),
            ),
            2..=5 => feed.turn(),
            _ => feed.close(),
        }
    }
}

/// Bytes without sense, some behind a right letter.
fn noise(rng: &mut Rng, feed: &mut Feed) {
    for _ in 0..rng.within(10..=100) {
        let letter = rng.pick(b"RRRTC");
        feed.plain(letter);
        match rng.below(3) {
            0 => feed.last().fill_with(|| rng.byte()),
            1 => feed.last()[4..12].fill_with(|| rng.byte()),
            _ => {
                let few = rng.below(4);
                for _ in 0..few {
                    let place = rng.below(RECORD_BYTES);
                    feed.last()[place] = rng.byte();
                }
            }
        }
    }
}

fn mixed(rng: &mut Rng, feed: &mut Feed) {
    for _ in 0..rng.within(1..=4) {
        match rng.below(6) {
            0 => noise(rng, feed),
            1 => limits(rng, feed),
            2 => turns_and_closings(rng, feed),
            3 => drought(rng, feed),
            _ => weather(rng, feed, 40),
        }
    }
}

/// Leaves 1 to 15 bytes of a last record.
fn cut(rng: &mut Rng, feed: &mut Feed) {
    let left = 1 + rng.below(RECORD_BYTES - 1);
    match rng.below(3) {
        0 => feed.plain(rng.byte()),
        1 => feed.turn(),
        _ => feed.rain(rng.within(0..=MOST_RAIN), 0),
    }
    let from = feed.0.len() - RECORD_BYTES;
    feed.0.truncate(from + left);
}

// ---- Cards and feeds that meet the large limits ----

/// All rain runs straight off.
fn paved(rng: &mut Rng) -> Figures {
    Figures::any(rng).with(&[("IMPV", N)])
}

/// Nearly all rain runs off over the slope, through every part of the hour.
fn steep(rng: &mut Rng) -> Figures {
    let infilt = rng.within(1_000..=3_000);
    let impv = rng.of_any_size(0..=N);
    Figures::any(rng).with(&[
        ("IMPV", impv),
        ("INFILT", infilt),
        ("INTFW", 100),
        ("OVK", 100_000),
        ("IFWK", N),
        ("GWK", N),
        ("AREA", 5_000),
    ])
}

/// What falls stays on the segment.
fn flat(rng: &mut Rng) -> Figures {
    let mut slow = || rng.of_any_size(1..=100);
    let rates = [("OVK", slow()), ("IFWK", slow()), ("GWK", slow())];
    Figures::any(rng).with(&rates).with(&[("IMPV", 0)])
}

/// The same, and even when it is full an hour lets go of a few hundred units at most.
fn brimming(rng: &mut Rng) -> Figures {
    flat(rng).with(&[
        ("LZSN", 15_000_000),
        ("INFILT", 500_000),
        ("INTFW", 1_000),
        ("DEEPFR", 0),
        ("OVK", 1),
        ("IFWK", 1),
        ("GWK", 1),
    ])
}

/// The lower zone takes most of the rain, and most of the demand is left for it.
fn rooted(rng: &mut Rng) -> Figures {
    let infilt = rng.within(200_000..=500_000);
    Figures::any(rng).with(&[
        ("IMPV", 0),
        ("CEPSC", 0),
        ("UZSN", 50_000),
        ("INFILT", infilt),
        ("AGWETP", 209_715),
    ])
}

/// Much percolates, and the lower zone fills beyond its curve.
fn soaked(rng: &mut Rng) -> Figures {
    steep(rng).with(&[
        ("IMPV", 0),
        ("UZSN", 2_000_000),
        ("LZSN", 2_000_000),
        ("INFILT", 500_000),
    ])
}

/// Water on a paved basin, where only the pocket and the channel ever hold any.
struct Paved {
    area: u64,
    rate: u64,
    pocket: u64,
    channel: u64,
    booked: u64,
}

impl Paved {
    fn new(figures: &Figures) -> Paved {
        let (area, rate) = (figures.get("AREA"), figures.get("CHK"));
        Paved {
            area,
            rate,
            pocket: 0,
            channel: 0,
            booked: 0,
        }
    }

    fn rain(&mut self, feed: &mut Feed, rain: u64) {
        feed.rain(rain, 0);
        self.pocket += self.area * rain;
        self.booked += self.area * rain;
    }

    fn turn(&mut self, feed: &mut Feed) {
        feed.turn();
        self.channel += self.pocket;
        self.pocket = 0;
        self.channel -= self.channel * self.rate / N;
    }

    /// The most rain that the basin still takes in an hour.
    fn room(&self) -> u64 {
        (BASIN_CEILING - self.pocket - self.channel) / self.area
    }

    /// The most rain that the book still takes.
    fn room_in_book(&self) -> u64 {
        (MOST_BOOKED - self.booked) / self.area
    }
}

/// A paved basin is filled to its ceiling and overfilled by one unit of depth, again and again.
fn full_basin(rng: &mut Rng) -> Case {
    // Without early turns, an area that divides the ceiling meets it exactly.
    let early_turns = rng.one_in(2);
    let area = match early_turns {
        true => rng.within(3_000..=5_000),
        false => rng.pick(&[3_125, 3_200, 4_000, 4_096, 5_000]),
    };
    let rate = rng.of_any_size(1..=200);
    let figures = paved(rng).with(&[("AREA", area), ("CHK", rate)]);
    let mut feed = Feed::default();
    let mut basin = Paved::new(&figures);
    while basin.room() > MOST_RAIN {
        basin.rain(&mut feed, rng.within(MOST_RAIN - 100_000..=MOST_RAIN));
        if early_turns && rng.one_in(6) {
            basin.turn(&mut feed);
        }
    }
    for _ in 0..20 {
        let room = basin.room();
        if room < MOST_RAIN {
            feed.rain(room + 1, 0);
            feed.rain(MOST_RAIN, 0);
        }
        basin.rain(&mut feed, room.min(MOST_RAIN));
        feed.rain(1, 0);
        feed.rain(0, rng.within(0..=MOST_DEMAND));
        if rng.one_in(4) {
            feed.close();
        }
        basin.turn(&mut feed);
    }
    feed.close();
    Case::new(rng, &figures, feed)
}

/// The basin fills while its segment holds water too. Amounts halve, so that each is granted
/// exactly where it still fits.
fn full_basin_with_land(rng: &mut Rng) -> Case {
    let figures = steep(rng).with(&[("CHK", 1), ("DEEPFR", 0)]);
    let mut feed = Feed::default();
    let early_turns = rng.one_in(2);
    for _ in 0..rng.within(105..=115) {
        feed.rain(MOST_RAIN, 0);
        if early_turns && rng.one_in(10) {
            feed.turn();
        }
    }
    for _ in 0..4 {
        for bit in (0..24).rev() {
            feed.rain(1 << bit, 0);
        }
        feed.rain(1, 0);
        feed.turn();
        feed.close();
    }
    Case::new(rng, &figures, feed)
}

/// The slope lets heavy rain go only when the segment is almost full, so that segment and basin
/// are near their ceilings together.
fn full_segment_and_basin(rng: &mut Rng) -> Case {
    let rate = rng.within(650..=800);
    let figures = steep(rng).with(&[("IMPV", 0), ("OVK", rate), ("CHK", 1)]);
    let mut feed = Feed::default();
    for _ in 0..rng.within(200..=350) {
        let least = rng.pick(&[0, 12_000_000, 14_000_000, MOST_RAIN]);
        feed.rain(rng.within(least..=MOST_RAIN), 0);
        if rng.one_in(30) {
            feed.turn();
        }
    }
    feed.close();
    Case::new(rng, &figures, feed)
}

/// One book takes all the rain that a book may take, on a paved basin. The last hours have no
/// turn, so that the basin is near its ceiling as well.
fn full_book(rng: &mut Rng) -> Case {
    let area = rng.pick(&[5_000, 4_999]);
    let figures = paved(rng).with(&[("AREA", area), ("CHK", N)]);
    let mut feed = Feed::default();
    let mut basin = Paved::new(&figures);
    let last_hours = 106;
    while basin.room_in_book() > (last_hours + 1) * MOST_RAIN {
        basin.rain(&mut feed, MOST_RAIN);
        basin.turn(&mut feed);
    }
    while basin.room_in_book() > MOST_RAIN {
        basin.rain(&mut feed, MOST_RAIN);
    }
    for room in [basin.room(), basin.room_in_book()] {
        feed.rain((room + 1).min(MOST_RAIN), 0);
    }
    let room = basin.room_in_book();
    basin.rain(&mut feed, room);
    feed.rain(1, 0);
    feed.rain(0, 0);
    feed.turn();
    feed.rain(1, 0);
    feed.close();
    feed.rain(1, 0);
    feed.close();
    Case::new(rng, &figures, feed)
}

/// The same over a slope, through every part of the hour, in hours of different rain.
fn full_book_with_land(rng: &mut Rng) -> Case {
    let figures = steep(rng).with(&[("CHK", N)]);
    let mut feed = Feed::default();
    let mut room = MOST_BOOKED / figures.get("AREA");
    while room > MOST_RAIN {
        let rain = rng.within(MOST_RAIN - 500_000..=MOST_RAIN);
        feed.rain(rain, rng.of_any_size(0..=50_000));
        feed.turn();
        room -= rain;
    }
    feed.rain(room + 1, 0);
    feed.rain(room, 0);
    feed.rain(1, 0);
    feed.rain(0, 1_000);
    feed.turn();
    feed.close();
    weather(rng, &mut feed, 20);
    Case::new(rng, &figures, feed)
}

// ---- Cases ----

struct Case {
    /// None leaves the file out.
    card: Option<Vec<u8>>,
    feed: Vec<u8>,
}

impl Case {
    fn new(rng: &mut Rng, figures: &Figures, feed: Feed) -> Case {
        let card = Card::new(rng, figures).bytes();
        Case {
            card: Some(card),
            feed: feed.0,
        }
    }

    /// A good card with one of the common feeds.
    fn common(rng: &mut Rng, card: fn(&mut Rng) -> Figures, fill: fn(&mut Rng, &mut Feed)) -> Case {
        let figures = card(rng);
        let mut feed = Feed::default();
        fill(rng, &mut feed);
        Case::new(rng, &figures, feed)
    }

    /// A damaged card with a short feed that must not be answered.
    fn damaged(rng: &mut Rng, damage: fn(&mut Card, &mut Rng)) -> Case {
        let figures = Figures::any(rng);
        let mut card = Card::new(rng, &figures);
        damage(&mut card, rng);
        Case {
            card: Some(card.bytes()),
            feed: short_feed(rng),
        }
    }

    fn write(&self, folder: &Path) -> io::Result<()> {
        fs::create_dir_all(folder)?;
        let card = folder.join("card.dat");
        match &self.card {
            Some(bytes) => fs::write(card, bytes)?,
            None => match fs::remove_file(card) {
                Err(error) if error.kind() != ErrorKind::NotFound => return Err(error),
                _ => {}
            },
        }
        fs::write(folder.join("feed.bin"), &self.feed)
    }
}

fn short_feed(rng: &mut Rng) -> Vec<u8> {
    let mut feed = Feed::default();
    let hours = rng.within(0..=5);
    weather(rng, &mut feed, hours);
    if rng.one_in(4) {
        cut(rng, &mut feed);
    }
    feed.0
}

fn wrong_length(rng: &mut Rng) -> Case {
    let figures = Figures::any(rng);
    let bytes = Card::new(rng, &figures).bytes();
    let card = if rng.one_in(2) {
        None
    } else {
        Some(of_wrong_length(rng, bytes))
    };
    Case {
        card,
        feed: short_feed(rng),
    }
}

fn any_weather(rng: &mut Rng, feed: &mut Feed) {
    let hours = rng.within(20..=150);
    weather(rng, feed, hours);
}

fn cut_weather(rng: &mut Rng, feed: &mut Feed) {
    let hours = rng.within(0..=60);
    weather(rng, feed, hours);
    cut(rng, feed);
}

fn nothing(_: &mut Rng, _: &mut Feed) {}

const PLANS: [fn(&mut Rng) -> Case; 33] = [
    |rng| Case::common(rng, Figures::usual, any_weather),
    |rng| Case::common(rng, Figures::anywhere, any_weather),
    |rng| Case::common(rng, Figures::at_ends, any_weather),
    |rng| Case::common(rng, Figures::near_ends, any_weather),
    wrong_length,
    |rng| Case::common(rng, Figures::usual, drought),
    |rng| Case::common(rng, Figures::any, drought),
    |rng| Case::damaged(rng, Card::damage_name),
    |rng| Case::common(rng, flat, monsoon),
    |rng| Case::common(rng, Figures::any, monsoon),
    |rng| Case::damaged(rng, Card::repeat_name),
    |rng| Case::common(rng, Figures::any, limits),
    |rng| Case::common(rng, flat, limits),
    |rng| Case::damaged(rng, Card::damage_figure),
    |rng| Case::common(rng, Figures::any, wrong_letters),
    |rng| Case::common(rng, Figures::any, set_bytes),
    |rng| Case::damaged(rng, Card::leave_range),
    |rng| Case::common(rng, Figures::any, cut_weather),
    |rng| Case::common(rng, Figures::any, turns_and_closings),
    |rng| Case::damaged(rng, Card::damage),
    full_basin,
    |rng| Case::common(rng, Figures::any, noise),
    full_basin_with_land,
    |rng| Case::damaged(rng, Card::damage_figure),
    |rng| Case::common(rng, Figures::any, mixed),
    full_segment_and_basin,
    |rng| Case::damaged(rng, Card::damage),
    |rng| Case::common(rng, steep, any_weather),
    |rng| Case::common(rng, soaked, monsoon),
    |rng| Case::common(rng, rooted, drought),
    |rng| Case::common(rng, rooted, any_weather),
    |rng| Case::common(rng, Figures::any, nothing),
    |rng| Case::common(rng, Figures::any, cut),
];

/// Long cases are rare: one of each in a hundred and fifty.
fn case(seed: u64, number: u64) -> Case {
    let mut rng = Rng(seed ^ Rng(number).next());
    match number % 150 {
        40 => full_book(&mut rng),
        80 => full_book_with_land(&mut rng),
        120 => Case::common(&mut rng, brimming, to_the_brim),
        _ => PLANS[(number % PLANS.len() as u64) as usize](&mut rng),
    }
}

fn write_cases(seed: u64, count: u64, folder: &Path) -> io::Result<()> {
    for number in 1..=count {
        case(seed, number).write(&folder.join(format!("{number:05}")))?;
    }
    Ok(())
}

fn main() -> ExitCode {
    let arguments: Vec<String> = std::env::args().skip(1).collect();
    let parsed = match arguments.as_slice() {
        [seed, count, folder] => seed.parse().ok().zip(count.parse().ok()).zip(Some(folder)),
        _ => None,
    };
    let Some(((seed, count), folder)) = parsed else {
        eprintln!("usage: cases SEED COUNT DIR");
        return ExitCode::FAILURE;
    };
    match write_cases(seed, count, Path::new(folder)) {
        Ok(()) => ExitCode::SUCCESS,
        Err(error) => {
            eprintln!("cases: {error}");
            ExitCode::FAILURE
        }
    }
}
