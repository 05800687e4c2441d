//! Scripts of calls for comparing two programs.
//!
//! `scripts SEED COUNT DIR` writes COUNT scripts DIR/00001.txt, DIR/00002.txt and so on. A seed
//! always gives the same scripts. Each line is run by script.rs as it is written, so that the
//! next lines can be granted, or aim at a limit and one unit above it. The plans take turns, so
//! a few hundred scripts hold every refusal that a script can meet.

#[allow(dead_code)]
#[path = "script.rs"]
mod script;

use script::{
    Answer, Bank, Basin, HillLine, Land, Parcel, River, RiverLine, Script, Segment, Storage,
    TurfLine, HOURS, LINE_BYTES, MOST_AREA, MOST_BUFFER, MOST_CEILING, MOST_DEMAND, MOST_LOSS,
    MOST_RAIN, MOST_SLOPE_RATE, MOST_WEIGHTS, N, PLOT_CEILING,
};
use std::fs;
use std::io;
use std::ops::RangeInclusive;
use std::path::Path;
use std::process::ExitCode;

// ---- Chance ----

/// Splitmix64.
struct Rng(u64);

impl Rng {
    fn next(&mut self) -> u64 {
        self.0 = self.0.wrapping_add(0x9e37_79b9_7f4a_7c15);
        let mut z = self.0;
        z = (z ^ (z >> 30)).wrapping_mul(0xbf58_476d_1ce4_e5b9);
        z = (z ^ (z >> 27)).wrapping_mul(0x94d0_49bb_1331_11eb);
        z ^ (z >> 31)
    }

    /// The range is not that of all figures.
    fn within(&mut self, range: RangeInclusive<u64>) -> u64 {
        let (least, most) = (*range.start(), *range.end());
        least + self.next() % (most - least + 1)
    }

    /// Small figures as often as large ones.
    fn of_any_size(&mut self, range: RangeInclusive<u64>) -> u64 {
        let (least, most) = (*range.start(), *range.end());
        let bits = self.within(0..=u64::from((most - least + 1).ilog2()) + 1);
        least + (self.next() & ((1 << bits) - 1)) % (most - least + 1)
    }

    fn below(&mut self, count: usize) -> usize {
        (self.next() % count as u64) as usize
    }

    fn one_in(&mut self, count: u64) -> bool {
        self.next().is_multiple_of(count)
    }

    fn pick<T: Copy>(&mut self, items: &[T]) -> T {
        items[self.below(items.len())]
    }

    fn byte(&mut self) -> u8 {
        self.next() as u8
    }

    /// Anything that is granted: often the ends.
    fn up_to(&mut self, most: u64) -> u64 {
        match self.below(6) {
            0 => 0,
            1 => most,
            2 | 3 => self.of_any_size(0..=most),
            _ => self.within(0..=most),
        }
    }

    /// One above a limit, a little more, or far more. There may be no figure above a limit that
    /// is itself a fault.
    fn above(&mut self, limit: u64) -> u64 {
        if limit >= 1 << 62 {
            return u64::MAX;
        }
        match self.below(8) {
            0..=2 => limit + 1,
            3 => limit + self.of_any_size(1..=1_000_000),
            // What a narrower figure would take for one that is granted.
            4 => (1 << 44) + self.within(0..=limit),
            5 if limit < 1 << 32 => (1 << 32) + self.within(0..=limit),
            6 => self.huge(),
            _ => limit + 1 + self.next() % (u64::MAX - limit),
        }
    }

    fn outside(&mut self, range: RangeInclusive<u64>) -> u64 {
        let (least, most) = (*range.start(), *range.end());
        match self.below(3) {
            0 if least > 0 => self.within(0..=least - 1),
            _ => self.above(most),
        }
    }

    fn huge(&mut self) -> u64 {
        let (most, top) = (u64::MAX, 1 << 63);
        self.pick(&[most, most, most, most - 1, top - 1, top, top + 1])
    }
}

// ---- Figures of a basin ----

/// How large the storages of a basin are.
#[derive(Clone, Copy)]
enum Size {
    Tiny,
    Small,
    Usual,
    /// Little land and a river that holds much.
    Deep,
    /// Figures at the ends of their limits.
    Ends,
}

impl Size {
    fn any(rng: &mut Rng) -> Size {
        use Size::*;
        rng.pick(&[Tiny, Small, Small, Usual, Usual, Usual, Deep, Deep, Ends])
    }

    fn plot_ceiling(self, rng: &mut Rng) -> u64 {
        match self {
            Size::Tiny => rng.within(0..=30),
            Size::Small | Size::Deep => rng.within(0..=5_000),
            Size::Usual => rng.within(1_000_000..=PLOT_CEILING),
            Size::Ends => rng.pick(&[0, 1, PLOT_CEILING - 1, PLOT_CEILING, PLOT_CEILING]),
        }
    }

    fn area(self, rng: &mut Rng) -> u64 {
        match self {
            Size::Tiny => rng.pick(&[1, 1, 1, 2, 3]),
            Size::Small | Size::Deep => rng.of_any_size(1..=60),
            Size::Usual => rng.of_any_size(1..=MOST_AREA),
            Size::Ends => rng.pick(&[1, MOST_AREA]),
        }
    }

    /// How far the river's ceiling is above the water on the plots, if it can be.
    fn spare(self, rng: &mut Rng) -> u64 {
        match self {
            Size::Tiny => rng.within(0..=60),
            Size::Small => rng.of_any_size(0..=200_000),
            Size::Usual => rng.of_any_size(0..=MOST_CEILING),
            Size::Deep => rng.within(MOST_CEILING / 2..=MOST_CEILING),
            Size::Ends => rng.pick(&[0, 1, MOST_CEILING]),
        }
    }
}

fn rate(rng: &mut Rng) -> u64 {
    match rng.below(6) {
        0 => 1,
        1 => N,
        2 | 3 => rng.of_any_size(1..=N),
        _ => rng.within(1..=N),
    }
}

/// A storage's own step has no limit on its demand.
fn step_demand(rng: &mut Rng, water: u64) -> u64 {
    match rng.below(8) {
        0 => water,
        1 => rng.huge(),
        2 => rng.of_any_size(0..=MOST_CEILING),
        3 | 4 => rng.of_any_size(0..=water),
        _ => 0,
    }
}

/// Weights with sum N.
fn weights(rng: &mut Rng) -> Vec<u64> {
    let count = match rng.below(6) {
        0 => 1,
        1 => 2,
        2 => HOURS,
        _ => 1 + rng.below(HOURS),
    };
    let mut weights = vec![0; count];
    match rng.below(4) {
        0 => weights[count - 1] = N,
        1 => {
            // Nearly equal.
            for (i, weight) in weights.iter_mut().enumerate() {
                let (i, count) = (i as u64, count as u64);
                *weight = N * (i + 1) / count - N * i / count;
            }
        }
        2 => {
            // A few of them take all.
            for _ in 0..8 {
                weights[rng.below(count)] += N / 8;
            }
        }
        _ => {
            let mut cuts: Vec<u64> = (1..count).map(|_| rng.up_to(N)).collect();
            cuts.push(N);
            cuts.sort_unstable();
            let mut from = 0;
            for (weight, cut) in weights.iter_mut().zip(cuts) {
                *weight = cut - from;
                from = cut;
            }
        }
    }
    weights
}

/// A turf that is granted.
fn turf_line(rng: &mut Rng, size: Size) -> TurfLine {
    let ceiling = size.plot_ceiling(rng);
    let inflow = rng.up_to(ceiling);
    TurfLine {
        rate: rate(rng),
        ceiling,
        inflow,
        demand: step_demand(rng, inflow),
        area: size.area(rng),
    }
}

/// A hill that is granted.
fn hill_line(rng: &mut Rng, size: Size) -> HillLine {
    let most_water = size.plot_ceiling(rng);
    let mut line = HillLine {
        slope_rate: match rng.below(4) {
            0 => 1,
            1 => MOST_SLOPE_RATE,
            _ => rng.of_any_size(1..=MOST_SLOPE_RATE),
        },
        water: rng.up_to(most_water),
        loss: rng.up_to(MOST_LOSS),
        rate: rate(rng),
        ceiling: 0,
        inflow: 0,
        demand: 0,
        area: size.area(rng),
    };
    let content = slope_content(&line);
    line.ceiling = match rng.below(6) {
        0 => content,
        1 => MOST_CEILING,
        2 => content.max(rng.of_any_size(0..=MOST_CEILING)),
        _ => content.max(size.plot_ceiling(rng)),
    };
    let room = line.ceiling.min(PLOT_CEILING) - content;
    line.inflow = match size {
        Size::Deep => rng.up_to(room.min(5_000)),
        _ => rng.up_to(room),
    };
    line.demand = step_demand(rng, line.inflow);
    line
}

/// What the slope holds after its own step.
fn slope_content(line: &HillLine) -> u64 {
    line.make_slope().map_or(0, |slope| slope.content())
}

/// A river that is granted over plots with so much water. Now and then it opens full.
fn river_line(rng: &mut Rng, size: Size, water: u64) -> RiverLine {
    let ceiling = MOST_CEILING.min(water + size.spare(rng));
    let mut line = RiverLine {
        first_rate: rate(rng),
        second_rate: rate(rng),
        loss: rng.up_to(MOST_LOSS),
        ceiling,
        inflow: rng.up_to(ceiling),
        draw: 0,
        weights: weights(rng),
    };
    if matches!(size, Size::Deep) {
        line.first_rate = rng.of_any_size(1..=N);
        line.inflow = rng.within(ceiling / 2..=ceiling);
    }
    let content = river_content(&line);
    let least = (water + content).saturating_sub(ceiling);
    line.draw = match rng.below(6) {
        0 => content,
        1 => rng.within(least..=content),
        _ => least,
    };
    line
}

/// What the river holds after its step, before the draw.
fn river_content(line: &RiverLine) -> u64 {
    let undrawn = RiverLine {
        draw: 0,
        ..line.clone()
    };
    undrawn.make().map_or(0, |(river, _)| river.content())
}

// ---- Figures that are refused ----

/// Refusals 6, 6, 17, 8 and 8.
const TURF_FAULTS: [fn(&mut Rng, &mut TurfLine); 5] = [
    |rng, line| line.rate = rng.outside(1..=N),
    |rng, line| line.ceiling = rng.above(MOST_CEILING),
    |rng, line| line.inflow = rng.above(line.ceiling),
    |rng, line| line.area = rng.outside(1..=MOST_AREA),
    |rng, line| line.ceiling = plot_too_high(rng),
];

fn plot_too_high(rng: &mut Rng) -> u64 {
    match rng.below(3) {
        0 => PLOT_CEILING + 1,
        1 => MOST_CEILING,
        _ => rng.of_any_size(PLOT_CEILING + 1..=MOST_CEILING),
    }
}

/// Refusals 6, 17, 6, 6, 6, 7, 17, 17 and 8.
const HILL_FAULTS: [fn(&mut Rng, &mut HillLine); 9] = [
    |rng, line| line.slope_rate = rng.outside(1..=MOST_SLOPE_RATE),
    |rng, line| line.water = rng.above(PLOT_CEILING),
    |rng, line| line.loss = rng.above(MOST_LOSS),
    |rng, line| line.rate = rng.outside(1..=N),
    |rng, line| line.ceiling = rng.above(MOST_CEILING),
    too_much_on_slope,
    |rng, line| line.inflow = rng.above(hill_room(line)),
    // Content plus inflow comes to 2^64.
    |_, line| line.inflow = 0_u64.wrapping_sub(slope_content(line).max(1)),
    |rng, line| line.area = rng.outside(1..=MOST_AREA),
];

fn hill_room(line: &HillLine) -> u64 {
    line.ceiling
        .min(PLOT_CEILING)
        .saturating_sub(slope_content(line))
}

fn too_much_on_slope(rng: &mut Rng, line: &mut HillLine) {
    line.slope_rate = rng.of_any_size(1..=20);
    line.water = rng.of_any_size(1..=PLOT_CEILING);
    let most = slope_content(line).saturating_sub(1);
    line.ceiling = match rng.below(2) {
        0 => most,
        _ => rng.up_to(most),
    };
}

/// The faults of a river know the water on the plots. Refusals 6 (five), 17, 20, 10 and 10.
const RIVER_FAULTS: [fn(&mut Rng, &mut RiverLine, u64); 9] = [
    |rng, line, _| line.first_rate = rng.outside(1..=N),
    |rng, line, _| line.second_rate = rng.outside(1..=N),
    |rng, line, _| line.loss = rng.above(MOST_LOSS),
    |rng, line, _| line.ceiling = rng.above(MOST_CEILING),
    |rng, line, _| spoil_weights(rng, &mut line.weights),
    |rng, line, _| line.inflow = rng.above(line.ceiling),
    |rng, line, _| line.draw = rng.above(river_content(line)),
    open_too_full,
    open_too_low,
];

fn spoil_weights(rng: &mut Rng, weights: &mut Vec<u64>) {
    if weights.is_empty() {
        return;
    }
    let place = rng.below(weights.len());
    match rng.below(8) {
        0 => weights.clear(),
        1 => {
            weights.resize(MOST_WEIGHTS - 1, 0);
            weights.insert(place, 0);
        }
        2 => weights.fill(0),
        3 => weights[place] = rng.huge(),
        4 => {
            // Comes to N where sums pass 2^64 unseen.
            weights.resize(weights.len().clamp(2, HOURS), 0);
            let (much, other) = (rng.huge(), rng.below(weights.len() - 1) + 1);
            weights[0] = weights[0].wrapping_add(much);
            weights[other] = weights[other].wrapping_sub(much);
        }
        5 | 6 => weights[place] = weights[place].wrapping_add(1),
        _ => {
            if let Some(weight) = weights.iter_mut().find(|weight| **weight > 0) {
                *weight -= 1;
            }
        }
    }
}

/// The draw leaves one unit too much, or more.
fn open_too_full(rng: &mut Rng, line: &mut RiverLine, water: u64) {
    line.loss = 0;
    line.first_rate = rng.of_any_size(1..=N);
    line.inflow = line.ceiling;
    let least = (water + river_content(line)).saturating_sub(line.ceiling);
    line.draw = match rng.below(2) {
        0 => least.saturating_sub(1),
        _ => rng.up_to(least.saturating_sub(1)),
    };
}

/// The plots alone hold more than the river's ceiling.
fn open_too_low(rng: &mut Rng, line: &mut RiverLine, water: u64) {
    let most = water.saturating_sub(1);
    line.ceiling = match rng.below(2) {
        0 => most,
        _ => rng.up_to(most),
    };
    line.inflow = rng.up_to(line.ceiling);
    line.draw = river_content(line);
}

// ---- Writing ----

/// A script as it is written, and what it comes to so far.
struct Writer {
    rng: Rng,
    script: Script,
    text: Vec<u8>,
    lines: usize,
    /// Figures have up to so many digits for their leading zeros.
    zeros: u64,
}

impl Writer {
    fn new(mut rng: Rng) -> Writer {
        let zeros = match rng.below(40) {
            0 => 600,
            1..=3 => 30,
            4..=7 => 5,
            _ => 0,
        };
        Writer {
            rng,
            script: Script::default(),
            text: Vec::new(),
            lines: 0,
            zeros,
        }
    }

    fn line(&mut self, line: &[u8]) -> Answer {
        self.text.extend_from_slice(line);
        self.text.push(b'\n');
        self.lines += 1;
        self.script.answer(line)
    }

    fn say(&mut self, word: &str, figures: &[u64]) -> Answer {
        let line = self.spell(word, figures);
        self.line(&line)
    }

    fn spell(&mut self, word: &str, figures: &[u64]) -> Vec<u8> {
        let mut line = word.to_string();
        for figure in figures {
            let width = self.rng.within(0..=self.zeros) as usize;
            line += &format!(" {figure:0>width$}");
        }
        line.into_bytes()
    }

    fn basin(&self) -> Option<&Basin<Land, River>> {
        self.script.basin()
    }

    fn segment(&self, segment: u64) -> Option<Segment> {
        self.basin()?.bank().segment(segment)
    }

    fn channel(&self) -> u64 {
        self.basin().map_or(0, |basin| basin.channel().content())
    }

    fn room(&self) -> u64 {
        self.basin().map_or(0, Basin::room)
    }

    fn room_in_book(&self) -> u64 {
        self.basin().map_or(0, Basin::room_in_book)
    }

    fn parcels(&self) -> &[Parcel] {
        self.script.parcels()
    }

    /// The place of a parcel with an amount in this range.
    fn parcel_of(&mut self, range: RangeInclusive<u64>) -> Option<u64> {
        let places: Vec<u64> = (0..)
            .zip(self.parcels())
            .filter(|(_, parcel)| range.contains(&parcel.amount()))
            .map(|(place, _)| place)
            .collect();
        match places.as_slice() {
            [] => None,
            places => Some(self.rng.pick(places)),
        }
    }
}

// ---- Makings ----

impl Writer {
    /// Turf and hill. Answers the water on them.
    fn plots(&mut self, size: Size) -> u64 {
        let turf = turf_line(&mut self.rng, size);
        self.say("turf", &turf.figures());
        let hill = hill_line(&mut self.rng, size);
        self.say("hill", &hill.figures());
        let on_turf = turf.make().map_or(0, |(plot, _)| plot.water());
        on_turf + hill.make().map_or(0, |(plot, _)| plot.water())
    }

    fn open(&mut self, size: Size) {
        let water = self.plots(size);
        let river = river_line(&mut self.rng, size, water);
        self.say("river", &river.figures());
    }

    fn open_any(&mut self) {
        let size = Size::any(&mut self.rng);
        self.open(size);
    }

    fn open_if_none(&mut self) {
        if self.basin().is_none() {
            self.open_any();
        }
    }

    fn refused_turf(&mut self) {
        let size = Size::any(&mut self.rng);
        let mut line = turf_line(&mut self.rng, size);
        for _ in 0..self.faults() {
            self.rng.pick(&TURF_FAULTS)(&mut self.rng, &mut line);
        }
        self.say("turf", &line.figures());
        self.after_refusal();
    }

    fn refused_hill(&mut self) {
        let size = Size::any(&mut self.rng);
        let turf = turf_line(&mut self.rng, size);
        self.say("turf", &turf.figures());
        let mut line = hill_line(&mut self.rng, size);
        for _ in 0..self.faults() {
            self.rng.pick(&HILL_FAULTS)(&mut self.rng, &mut line);
        }
        self.say("hill", &line.figures());
        self.after_refusal();
    }

    fn refused_river(&mut self) {
        let size = Size::any(&mut self.rng);
        let water = self.plots(size);
        let mut line = river_line(&mut self.rng, size, water);
        for _ in 0..self.faults() {
            self.rng.pick(&RIVER_FAULTS)(&mut self.rng, &mut line, water);
        }
        self.say("river", &line.figures());
        self.after_refusal();
    }

    /// Mostly one. With two, the order of the rules tells.
    fn faults(&mut self) -> u64 {
        self.rng.pick(&[1, 1, 1, 2])
    }

    /// Calls for a basin that is given up.
    fn after_refusal(&mut self) {
        for _ in 0..self.rng.within(0..=3) {
            let (word, figures) = self.any_line();
            if word != "turf" {
                self.say(word, &figures);
            }
        }
        if self.rng.one_in(2) {
            self.open_any();
        }
    }

    /// A basin whose room is what a parcel holds, or one unit less.
    fn open_for_parcel(&mut self) {
        let Some(place) = self.parcel_of(1..=MOST_CEILING) else {
            return self.live(10);
        };
        let amount = self.parcels()[place as usize].amount();
        let size = self.rng.pick(&[Size::Tiny, Size::Small]);
        let water = self.plots(size);
        let mut line = river_line(&mut self.rng, size, water);
        line.inflow = 0;
        line.draw = 0;
        if self.rng.one_in(2) {
            // All of it stays in the first reach.
            (line.first_rate, line.loss) = (1, 0);
            line.inflow = self.rng.of_any_size(0..=amount.min(N - 1));
        }
        let short = self.rng.within(0..=1);
        line.ceiling = (water + line.inflow + amount - short).min(MOST_CEILING);
        self.say("river", &line.figures());
        self.say("pour", &[place]);
        self.live(4);
    }
}

// ---- Calls that are granted ----

impl Writer {
    /// Any calls that the basin grants.
    fn live(&mut self, calls: u64) {
        self.open_if_none();
        for _ in 0..calls {
            self.granted_call();
        }
    }

    fn granted_call(&mut self) {
        match self.rng.below(40) {
            0..=15 => self.rain(),
            16..=23 => self.turn(),
            24..=28 => self.draw(),
            29..=32 => self.pour(),
            33..=34 => self.book(),
            35..=36 => self.close(),
            37..=38 => self.ask(),
            _ => self.pair_rows(),
        }
    }

    /// The most rain that is granted on a segment.
    fn most_rain(&self, segment: u64) -> u64 {
        let Some(segment) = self.segment(segment) else {
            return 0;
        };
        let water = self.room().min(self.room_in_book());
        MOST_RAIN.min(segment.room()).min(water / segment.area)
    }

    fn rain(&mut self) {
        let segment = self.rng.within(0..=1);
        let depth = self.most_rain(segment);
        let depth = self.rng.up_to(depth);
        let demand = match self.rng.below(3) {
            0 => 0,
            1 => self.rng.of_any_size(0..=depth.min(MOST_DEMAND)),
            _ => self.rng.up_to(MOST_DEMAND),
        };
        self.say("rain", &[segment, depth, demand]);
    }

    fn turn(&mut self) {
        self.say("turn", &[]);
    }

    fn draw(&mut self) {
        match self.channel() {
            0 => self.turn(),
            content => {
                let amount = self.rng.up_to(content).max(1);
                self.say("draw", &[amount]);
            }
        }
    }

    fn pour(&mut self) {
        let most = self.room().min(self.room_in_book());
        match self.parcel_of(1..=most) {
            Some(place) => {
                self.say("pour", &[place]);
            }
            None => self.draw(),
        }
    }

    /// An empty parcel first.
    fn book(&mut self) {
        match self
            .parcel_of(0..=0)
            .or_else(|| self.parcel_of(0..=MOST_CEILING))
        {
            Some(place) => {
                self.say("book", &[place]);
            }
            None => self.draw(),
        }
    }

    fn close(&mut self) {
        self.say("closing", &[]);
    }

    fn ask(&mut self) {
        let size = match self.rng.below(4) {
            0 => LINE_BYTES,
            1 => MOST_BUFFER,
            _ => self.rng.within(LINE_BYTES..=MOST_BUFFER),
        };
        self.say("question", &[size]);
    }

    fn pair_rows(&mut self) {
        let first = self.rng.pick(&[1, 2, 4, 8]);
        let second = self.rng.pick(&[1, 2, 4, 8]);
        self.say("row", &[first, second]);
    }

    fn days(&mut self) {
        let calls = self.rng.within(10..=40);
        self.live(calls);
    }

    /// Wet and dry hours with a turn after each, and a closing now and then.
    fn weather(&mut self) {
        self.open_if_none();
        let day = self.rng.within(2..=12);
        let heaviest = self.rng.pick(&[100, 50_000, 1_000_000, MOST_RAIN]);
        let thirst = self.rng.pick(&[0, 50, 20_000, MOST_DEMAND]);
        for hour in 1..=self.rng.within(4..=14) {
            for segment in 0..=1 {
                let most = self.most_rain(segment).min(heaviest);
                let depth = match self.rng.below(3) {
                    0 => 0,
                    _ => self.rng.within(0..=most),
                };
                let demand = self.rng.within(0..=thirst);
                self.say("rain", &[segment, depth, demand]);
            }
            self.turn();
            if hour % day == 0 {
                self.close();
            }
        }
    }

    /// Water goes from basin to basin in parcels.
    fn carry(&mut self) {
        self.open_if_none();
        for _ in 0..self.rng.within(1..=4) {
            self.draw();
        }
        self.open_any();
        for _ in 0..self.rng.within(2..=6) {
            self.pour();
            if self.rng.one_in(2) {
                self.turn();
            }
        }
        self.ask();
        self.book();
    }

    /// The river runs dry, hour by hour.
    fn ebb(&mut self) {
        self.open_if_none();
        for _ in 0..self.rng.within(5..=30) {
            self.turn();
        }
        self.close();
    }
}

// ---- Calls at limits and above ----

impl Writer {
    /// Refusal 17, where a segment is not too large.
    fn brimming_segment(&mut self) {
        self.open_if_none();
        for _ in 0..self.rng.within(1..=4) {
            let segment = self.rng.within(0..=1);
            let room = self.segment(segment).map_or(0, Segment::room);
            let depth = self.rng.above(room).min(MOST_RAIN);
            let demand = self.rng.up_to(MOST_DEMAND);
            self.say("rain", &[segment, depth, demand]);
            let depth = self.most_rain(segment);
            self.say("rain", &[segment, depth, 0]);
            self.granted_call();
        }
    }

    /// Refusal 18 by rain, where the segment still has room.
    fn brimming_basin(&mut self) {
        self.open_if_none();
        for _ in 0..self.rng.within(1..=4) {
            let segment = self.rng.within(0..=1);
            let Some(Segment { area, .. }) = self.segment(segment) else {
                return;
            };
            let depth = self.room() / area;
            self.say("rain", &[segment, depth + 1, 0]);
            self.say("rain", &[segment, depth, 0]);
            self.say("rain", &[segment, 1, 0]);
            self.granted_call();
        }
    }

    /// A basin of one acre with a slow river is filled to its ceiling. Then a parcel just fits,
    /// or is one unit too much: refusal 18 by a pour.
    fn brim(&mut self) {
        let spare = self.rng.of_any_size(2..=100_000);
        let turf = [rate(&mut self.rng), PLOT_CEILING, 0, 0, 1];
        self.say("turf", &turf);
        let hill = hill_line(&mut self.rng, Size::Tiny);
        self.say("hill", &hill.figures());
        let water = hill.make().map_or(0, |(plot, _)| plot.water());
        let inflow = self.rng.within(1..=spare);
        let ceiling = water + spare;
        let mut river = vec![1, rate(&mut self.rng), 0, ceiling, inflow, 0];
        river.extend(weights(&mut self.rng));
        self.say("river", &river);
        for _ in 0..self.rng.within(2..=5) {
            let above = self.rng.within(0..=1);
            let depth = self.room() + above;
            self.draw();
            self.say("rain", &[0, depth, 0]);
            let place = (self.parcels().len() as u64).saturating_sub(1);
            self.say("pour", &[place]);
            self.say("rain", &[0, self.room() + 1, 0]);
            self.turn();
        }
        self.ask();
    }

    /// Refusals 14, 15 and 16, alone and together.
    fn rain_limits(&mut self) {
        self.open_if_none();
        for _ in 0..self.rng.within(2..=8) {
            let segment = match self.rng.below(4) {
                0 => self.rng.pick(&[2, 3, 15, 16, 255, 256, 257, 1 << 32]),
                1 if self.rng.one_in(2) => self.rng.above(1),
                _ => self.rng.within(0..=1),
            };
            let depth = match self.rng.below(4) {
                0 => MOST_RAIN,
                1 => self.rng.above(MOST_RAIN),
                _ => self.rng.up_to(MOST_RAIN),
            };
            let demand = match self.rng.below(4) {
                0 => MOST_DEMAND,
                1 => self.rng.above(MOST_DEMAND),
                _ => self.rng.up_to(MOST_DEMAND),
            };
            self.say("rain", &[segment, depth, demand]);
        }
    }

    /// Refusal 20.
    fn draw_limits(&mut self) {
        self.open_if_none();
        for _ in 0..self.rng.within(2..=6) {
            let content = self.channel();
            let amount = match self.rng.below(4) {
                0 => 0,
                1 => self.rng.above(content),
                2 => content,
                _ => self.rng.up_to(content),
            };
            self.say("draw", &[amount]);
            self.granted_call();
        }
    }

    /// Refusal 21, and 18 where a parcel is too large.
    fn pour_limits(&mut self) {
        self.open_if_none();
        for _ in 0..self.rng.within(2..=6) {
            self.draw();
            let parcels = self.parcels().len() as u64;
            if parcels > 0 {
                let place = self.rng.within(0..=parcels - 1);
                self.say("pour", &[place]);
                if self.rng.one_in(2) {
                    self.say("pour", &[place]);
                }
            }
        }
        self.book();
    }

    /// Refusals 22 and 9.
    fn lines_and_rows(&mut self) {
        self.open_if_none();
        for _ in 0..self.rng.within(1..=4) {
            let size = match self.rng.below(3) {
                0 => self.rng.pick(&[0, 1, LINE_BYTES - 1, LINE_BYTES]),
                _ => self.rng.within(0..=MOST_BUFFER),
            };
            self.say("question", &[size]);
            let first = self.rng.pick(&[1, 2, 4, 8, 16, 16]);
            let second = self.rng.pick(&[1, 2, 4, 8, 8, 16]);
            self.say("row", &[first, second]);
        }
    }
}

// ---- Lines that come to nothing ----

impl Writer {
    /// A line that is well formed, whatever it may come to.
    fn any_line(&mut self) -> (&'static str, Vec<u64>) {
        let size = Size::any(&mut self.rng);
        let parcels = self.parcels().len() as u64;
        let rng = &mut self.rng;
        match rng.below(16) {
            0 => ("turf", turf_line(rng, size).figures().to_vec()),
            1 => ("hill", hill_line(rng, size).figures().to_vec()),
            2 => ("river", river_line(rng, size, 0).figures()),
            3..=5 => {
                let (segment, depth) = (rng.within(0..=1), rng.up_to(MOST_RAIN));
                ("rain", vec![segment, depth, rng.up_to(MOST_DEMAND)])
            }
            6 | 7 => ("turn", vec![]),
            8 | 9 => ("draw", vec![rng.up_to(1_000)]),
            10 => ("pour", vec![rng.within(0..=parcels)]),
            11 => ("book", vec![rng.within(0..=parcels)]),
            12 => ("closing", vec![]),
            13 | 14 => ("question", vec![rng.within(0..=MOST_BUFFER)]),
            _ => ("row", vec![rng.pick(&[1, 2, 4, 8, 16]), 1]),
        }
    }

    fn nonsense(&mut self) {
        for _ in 0..self.rng.within(1..=5) {
            match self.rng.below(5) {
                0 => self.ask_for_missing(),
                1 => self.wrong_figure(),
                _ => self.damaged_line(),
            }
            if self.rng.one_in(3) {
                self.granted_call();
            }
        }
    }

    /// What is not there, or not allowed in a line.
    fn ask_for_missing(&mut self) {
        let parcels = self.parcels().len() as u64;
        let rows = [0, 1, 2, 3, 5, 7, 9, 12, 15, 17, 24, 32, 1 << 32];
        let no_place = self
            .rng
            .pick(&[parcels, parcels, parcels + 1, parcels + (1 << 32)]);
        match self.rng.below(9) {
            0 => self.say("pour", &[no_place]),
            1 => self.say("book", &[no_place]),
            2 => {
                let (word, place) = (self.rng.pick(&["pour", "book"]), self.rng.huge());
                self.say(word, &[place])
            }
            3 => {
                let size = self.rng.above(MOST_BUFFER);
                self.say("question", &[size])
            }
            4 => {
                let (first, second) = (self.rng.pick(&rows), self.rng.pick(&rows));
                self.say("row", &[first, second])
            }
            5 => {
                let (first, second) = (self.rng.pick(&[1, 16]), self.rng.huge());
                self.say("row", &[first, second])
            }
            6 => {
                let hill = hill_line(&mut self.rng, Size::Small);
                self.say("hill", &hill.figures())
            }
            7 => {
                let river = river_line(&mut self.rng, Size::Small, 0);
                self.say("river", &river.figures())
            }
            _ => {
                let mut river = river_line(&mut self.rng, Size::Small, 0);
                let weights = MOST_WEIGHTS + 1 + self.rng.below(3);
                river.weights.resize(weights, 0);
                self.say("river", &river.figures())
            }
        };
    }

    /// A figure that is none, or too large, in a good line.
    fn wrong_figure(&mut self) {
        let (word, figures) = self.any_line();
        if figures.is_empty() {
            return self.damaged_line();
        }
        let mut fields: Vec<String> = figures.iter().map(u64::to_string).collect();
        let place = self.rng.below(fields.len());
        let figure = figures[place];
        fields[place] = match self.rng.below(14) {
            0 => format!("+{figure}"),
            1 => format!("-{figure}"),
            2 => format!("{figure}.0"),
            3 => format!("{figure},"),
            4 => format!("0x{figure:x}"),
            5 => format!("{figure}e0"),
            6 => format!("{figure}_0"),
            7 => "x".into(),
            // One too large, and what a figure of 64 bits would take for the good one.
            8 => (1_u128 << 64).to_string(),
            9 | 10 => ((1_u128 << 64) + u128::from(figure)).to_string(),
            11 => ((1_u128 << 65) + u128::from(figure)).to_string(),
            12 => format!("{figure}{:0>20}", 0),
            _ => "9".repeat(20 + self.rng.below(30)),
        };
        self.line(format!("{word} {}", fields.join(" ")).as_bytes());
    }

    /// A good line with one thing wrong in its word, its blanks or its number of figures.
    fn damaged_line(&mut self) {
        let (word, mut figures) = self.any_line();
        let mut line = self.spell(word, &figures);
        let rng = &mut self.rng;
        let blanks: Vec<usize> = (0..line.len()).filter(|&i| line[i] == b' ').collect();
        match rng.below(16) {
            0 => line[0].make_ascii_uppercase(),
            1 => line.make_ascii_uppercase(),
            2 => line.insert(0, b' '),
            3 => line.push(b' '),
            4 => line.push(b'\r'),
            5 => line.insert(word.len(), rng.pick(b"s0\0_")),
            6 => {
                line.remove(rng.below(word.len()));
            }
            7 => line.clear(),
            8 => line = vec![b' '; 1 + rng.below(3)],
            9 => {
                figures.push(rng.up_to(1_000));
                line = self.spell(word, &figures);
            }
            10 if !figures.is_empty() => {
                figures.remove(rng.below(figures.len()));
                line = self.spell(word, &figures);
            }
            11 if !blanks.is_empty() => line.insert(rng.pick(&blanks), b' '),
            12 if !blanks.is_empty() => line[rng.pick(&blanks)] = rng.pick(b"\t\0,\xa0"),
            13 if !blanks.is_empty() => {
                line.remove(rng.pick(&blanks));
            }
            14 => {
                let place = rng.below(line.len());
                line[place] = match rng.byte() {
                    b'\n' => 0xff,
                    byte => byte,
                };
            }
            _ => {
                let words = [
                    "snow", "X", "#", "?", "R", "rain\t", "end", "turf;", "\u{e9}",
                ];
                let word = rng.pick(&words);
                line = self.spell(word, &figures);
            }
        }
        self.line(&line);
    }

    /// Makings in a wrong order. A turf always begins anew.
    fn out_of_order(&mut self) {
        for _ in 0..self.rng.within(2..=6) {
            let size = Size::any(&mut self.rng);
            match self.rng.below(4) {
                0 | 1 => {
                    let turf = turf_line(&mut self.rng, size);
                    self.say("turf", &turf.figures());
                }
                2 => {
                    let hill = hill_line(&mut self.rng, size);
                    self.say("hill", &hill.figures());
                }
                _ => {
                    let river = river_line(&mut self.rng, size, 0);
                    self.say("river", &river.figures());
                }
            }
            if self.rng.one_in(3) {
                let (word, figures) = self.any_line();
                self.say(word, &figures);
            }
        }
        self.open_if_none();
    }
}

// ---- Books that are full ----

impl Writer {
    /// The greatest river is drawn dry and poured back until the book takes no more.
    fn churn(&mut self) {
        if self.rng.one_in(2) {
            // A parcel of another basin waits, too large for both limits at the end.
            self.open(Size::Deep);
            self.say("draw", &[self.channel() / 2]);
        }
        let turf = [
            rate(&mut self.rng),
            PLOT_CEILING,
            0,
            0,
            1 + self.rng.below(3) as u64,
        ];
        self.say("turf", &turf);
        let area = self.rng.of_any_size(1..=MOST_AREA);
        let hill = [MOST_SLOPE_RATE, 0, 0, N, PLOT_CEILING, 0, 0, area];
        self.say("hill", &hill);
        let mut river = vec![1, 1, 0, MOST_CEILING, MOST_CEILING, 0];
        let mut late = vec![0; HOURS];
        late[HOURS - 1] = N;
        river.extend(if self.rng.one_in(2) { vec![N] } else { late });
        self.say("river", &river);
        // What stays is enough for the last draws.
        let stays = self.rng.of_any_size(100_000..=1_000_000_000);
        while self.room_in_book() > self.channel() {
            self.say("draw", &[self.channel() - stays]);
            let place = self.parcels().len() as u64 - 1;
            self.say("pour", &[place]);
            self.turn();
        }
        self.end_of_book();
    }

    /// The last water that the book takes, by a pour and by rain, and one unit more of each.
    fn end_of_book(&mut self) {
        let left = self.rng.of_any_size(1..=30_000);
        let first = self.parcels().len() as u64;
        self.say("draw", &[self.room_in_book().saturating_sub(left)]);
        self.say("draw", &[left + 1]);
        self.say("pour", &[first]);
        self.say("pour", &[first + 1]);
        self.say("pour", &[0]);
        self.full_book_rain();
        self.say("pour", &[first + 1]);
        self.ask();
        self.close();
        self.say("pour", &[first + 1]);
    }

    /// Segment 0 has few acres, so the limit is met on it exactly or almost.
    fn full_book_rain(&mut self) {
        for segment in [1, 0] {
            let Some(Segment { area, .. }) = self.segment(segment) else {
                return;
            };
            let depth = self.room_in_book() / area;
            self.say("rain", &[segment, depth + 1, 0]);
            self.say("rain", &[segment, depth, 0]);
        }
        let segment = self.rng.within(0..=1);
        self.say("rain", &[segment, 1, 0]);
        self.say("rain", &[segment, 0, 0]);
    }

    /// One book takes all the rain that it may, on two plots that let it all go.
    fn wet_book(&mut self) {
        let lightest = self.rng.pick(&[MOST_RAIN, MOST_RAIN - 500_000]);
        self.say("turf", &[N, PLOT_CEILING, 0, 0, MOST_AREA]);
        let hill = [MOST_SLOPE_RATE, 0, 0, N, PLOT_CEILING, 0, 0, MOST_AREA];
        self.say("hill", &hill);
        let ceiling = self.rng.within(MOST_CEILING / 2..=MOST_CEILING);
        let mut river = vec![rate(&mut self.rng), N, 0, ceiling, 0, 0];
        river[0] = river[0].max(N / 4);
        river.extend(weights(&mut self.rng));
        self.say("river", &river);
        let most = MOST_AREA * MOST_RAIN;
        while self.room_in_book() > most {
            let segment = self.rng.within(0..=1);
            let depth = self.rng.within(lightest..=MOST_RAIN);
            self.say("rain", &[segment, depth, 0]);
            self.turn();
            match self.rng.below(200) {
                0 => self.ask(),
                1 => self.draw(),
                2 => self.book(),
                _ => {}
            }
        }
        self.say("draw", &[1]);
        self.say("draw", &[MOST_AREA]);
        self.full_book_rain();
        // Less than an acre's unit is left at most.
        let parcels = self.parcels().len() as u64;
        for place in (0..parcels).rev().take(2) {
            self.say("pour", &[place]);
        }
        self.full_book_rain();
        self.close();
        self.live(20);
    }
}

// ---- Scripts ----

type Act = fn(&mut Writer);

/// What a script is made of. An act that stands twice comes twice as often.
const PLANS: [&[Act]; 8] = [
    &[Writer::weather, Writer::days, Writer::ebb],
    &[
        Writer::days,
        Writer::days,
        Writer::weather,
        Writer::carry,
        Writer::open_any,
    ],
    &[
        Writer::days,
        Writer::days,
        Writer::brimming_segment,
        Writer::brimming_basin,
        Writer::rain_limits,
        Writer::open_any,
    ],
    &[
        Writer::days,
        Writer::carry,
        Writer::draw_limits,
        Writer::pour_limits,
        Writer::open_for_parcel,
        Writer::brim,
    ],
    &[
        Writer::days,
        Writer::days,
        Writer::refused_turf,
        Writer::refused_hill,
        Writer::refused_river,
    ],
    &[
        Writer::refused_turf,
        Writer::refused_hill,
        Writer::refused_hill,
        Writer::refused_river,
        Writer::refused_river,
        Writer::open_any,
        Writer::out_of_order,
        Writer::days,
    ],
    &[
        Writer::days,
        Writer::days,
        Writer::weather,
        Writer::nonsense,
        Writer::lines_and_rows,
        Writer::open_any,
    ],
    &[
        Writer::days,
        Writer::days,
        Writer::days,
        Writer::weather,
        Writer::carry,
        Writer::ebb,
        Writer::brimming_segment,
        Writer::brimming_basin,
        Writer::brim,
        Writer::rain_limits,
        Writer::draw_limits,
        Writer::pour_limits,
        Writer::open_for_parcel,
        Writer::lines_and_rows,
        Writer::refused_turf,
        Writer::refused_hill,
        Writer::refused_river,
        Writer::nonsense,
        Writer::out_of_order,
        Writer::open_any,
    ],
];

/// The longest act has under sixty lines, so a script has at most four hundred.
fn follow(writer: &mut Writer, plan: &[Act]) {
    let lines = writer.rng.within(20..=340) as usize;
    if writer.rng.one_in(2) {
        writer.open_any();
    }
    while writer.lines < lines {
        let act = writer.rng.pick(plan);
        act(writer);
    }
}

/// Full books are rare, and long ones rarer.
fn script(seed: u64, number: u64) -> Vec<u8> {
    let mut writer = Writer::new(Rng(seed ^ Rng(number).next()));
    match number % 400 {
        200 => writer.wet_book(),
        rest if rest % 40 == 7 => writer.churn(),
        rest => follow(&mut writer, PLANS[rest as usize % PLANS.len()]),
    }
    let mut text = writer.text;
    if writer.rng.one_in(4) {
        // The last line may lack its newline.
        text.pop();
    }
    text
}

fn write_scripts(seed: u64, count: u64, folder: &Path) -> io::Result<()> {
    fs::create_dir_all(folder)?;
    for number in 1..=count {
        fs::write(
            folder.join(format!("{number:05}.txt")),
            script(seed, number),
        )?;
    }
    Ok(())
}

fn main() -> ExitCode {
    let arguments: Vec<String> = std::env::args().skip(1).collect();
    let parsed = match arguments.as_slice() {
        [seed, count, folder] => seed.parse().ok().zip(count.parse().ok()).zip(Some(folder)),
        _ => None,
    };
    let Some(((seed, count), folder)) = parsed else {
        eprintln!("usage: scripts SEED COUNT DIR");
        return ExitCode::FAILURE;
    };
    match write_scripts(seed, count, Path::new(folder)) {
        Ok(()) => ExitCode::SUCCESS,
        Err(error) => {
            eprintln!("scripts: {error}");
            ExitCode::FAILURE
        }
    }
}
