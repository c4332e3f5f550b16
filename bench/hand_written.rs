//! A road in plain Rust, written by hand, with nothing proved: the program's times are compared with
//! its times (`bench/compare-hand-written` compiles it).
//!
//!     hand_written cars < SCRIPT
//!     hand_written columns < SCRIPT
//!
//! Answers a script of this folder as the program does, byte for byte. Then it writes to standard
//! error how many milliseconds its advances, edits and queries took, without start, reading and
//! writing.
//!
//! Supported: one replica whose words have a seed; `advance`, `cells`, `count`; `edit` of limits,
//! slowing chances, blocked cells, inflows and detectors, at any step. Not supported: slow-to-start,
//! withdrawals, steady words, other commands, refusals. A line that the scripts of this folder
//! would not write ends the program, or is answered wrongly.
//!
//! The road has two forms. `cars` is a list of cars; each car has the last 16 words that were drawn
//! for it, and words are drawn only for a car whose slowing depends on chance. `columns` is in
//! `hand_written_columns.rs`. Both run in the same way: every 64 steps there is a checkpoint with
//! the detectors' totals, from which late edits and queries start; and in each step, each object
//! that has edits is checked for an edit dated at this step.

mod hand_written_columns;

use hand_written_columns::Columns;
use std::array::from_fn;
use std::collections::BTreeMap;
use std::io::{BufRead, BufReader, BufWriter, Write, stdin, stdout};
use std::time::Instant;

/// The steps from one checkpoint to the next.
const INTERVAL: u32 = 64;
/// The chance of an event that always happens.
const ALWAYS: u32 = 65536;
/// The cell ahead of a car that has nothing ahead of it.
const FREE: u16 = u16::MAX;

#[derive(Clone, Copy)]
struct Car {
    /// 16 times the step of entry, plus the inlet.
    number: u32,
    cell: u16,
    speed: u16,
}

/// Return the upper halves of 16 words of a stream, from step 16 * batch on: ChaCha with 8 rounds.
#[inline(never)]
fn draw(seed: u64, stream: u64, batch: u32) -> [u16; 16] {
    let key = [(seed >> 32) as u32, seed as u32].map(u32::swap_bytes);
    let mut start = [0; 16];
    start[..4].copy_from_slice(&[0x61707865, 0x3320646e, 0x79622d32, 0x6b206574]);
    start[4..6].copy_from_slice(&key);
    start[12] = batch;
    start[14..].copy_from_slice(&[stream as u32, (stream >> 32) as u32]);
    let mut state = start;
    for _ in 0..4 {
        for turn in 0..2 {
            // The four columns, then the four diagonals.
            for column in 0..4 {
                quarter_round(&mut state, from_fn(|row| 4 * row + (column + row * turn) % 4));
            }
        }
    }
    from_fn(|place| (state[place].wrapping_add(start[place]) >> 16) as u16)
}

#[inline(always)]
fn quarter_round(state: &mut [u32; 16], [a, b, c, d]: [usize; 4]) {
    for [left, right] in [[16, 12], [8, 7]] {
        state[a] = state[a].wrapping_add(state[b]);
        state[d] = (state[d] ^ state[a]).rotate_left(left);
        state[c] = state[c].wrapping_add(state[d]);
        state[b] = (state[b] ^ state[c]).rotate_left(right);
    }
}

/// The batch of 16 words that was drawn last for a car or an inlet.
#[derive(Clone, Copy)]
struct Batch {
    number: u32,
    words: [u16; 16],
}

impl Batch {
    const NONE: Batch = Batch { number: u32::MAX, words: [0; 16] };

    #[inline(always)]
    fn word(&mut self, seed: u64, stream: u64, step: u32) -> u32 {
        if self.number != step / 16 {
            *self = Batch { number: step / 16, words: draw(seed, stream, step / 16) };
        }
        self.words[step as usize % 16].into()
    }
}

/// Return whether an event of this chance happens. Draws no word if it always or never happens.
#[inline(always)]
fn is_met(chance: u32, word: impl FnOnce() -> u32) -> bool {
    chance > 0 && (chance >= ALWAYS || word() < chance)
}

/// The values that edits set, by step, for each object (kind and index).
type Edits = BTreeMap<(String, usize), BTreeMap<u32, u32>>;

/// A plan and its edits.
struct Plan {
    length: u16,
    /// The number of cells of a zone.
    width: u16,
    /// The first cell of the deleted zone.
    end: u16,
    inlets: Vec<u16>,
    detectors: Vec<u16>,
    seed: u64,
    /// Return the settings without edits.
    settings: Settings,
    edits: Edits,
}

/// All settings at one step.
#[derive(Clone)]
struct Settings {
    limits: [u16; 64],
    chances: [u32; 64],
    inflows: [u32; 16],
    /// The blocked cells, in ascending order.
    blocks: Vec<u16>,
    /// Whether each detector counts.
    watched: [bool; 64],
    /// Whether the slowing of some car depends on chance.
    random: bool,
}

impl Settings {
    /// Return the settings at a step: each object has the value of its latest edit up to this step.
    fn at(plan: &Plan, step: u32) -> Settings {
        let mut settings = plan.settings.clone();
        for ((kind, index), dated) in &plan.edits {
            if let Some((_, &value)) = dated.range(..=step).next_back() {
                settings.put(kind, *index, value);
            }
        }
        settings.random = settings.chances.iter().any(|&chance| chance > 0 && chance < ALWAYS);
        settings
    }

    /// Set a value in place of the plan's.
    fn put(&mut self, kind: &str, index: usize, value: u32) {
        match kind {
            "limit" => self.limits[index] = value as u16,
            "slow" => self.chances[index] = value,
            "block" => self.blocks.extend((value == 1).then_some(index as u16)),
            "inflow" => self.inflows[index] = value,
            "watch" => self.watched[index] = value == 1,
            _ => panic!("{kind} is not an object here"),
        }
    }
}

/// The cars on the road, by ascending cells. In one step at most one car passes a detector, and at most one reaches the deleted zone.
trait Form: Default {
    /// Replace the cars with those of a checkpoint.
    fn put(&mut self, plan: &Plan, cars: &[Car]);
    fn cars(&self) -> Vec<Car>;
    /// Return the place of the car at a cell, or the place that a car entering there would get.
    fn find(&self, cell: u16) -> Result<usize, usize>;
    fn enter(&mut self, plan: &Plan, place: usize, car: Car);
    /// Compute the new speed of each car, and move the cars.
    fn drive(&mut self, plan: &Plan, settings: &Settings, step: u32);
    /// Return the speed of the car that passed a detector in the last motion. Called once for each motion.
    fn passed(&mut self, detector: usize, site: u16) -> Option<u16>;
    /// Delete the car at or past a cell.
    fn delete_from(&mut self, end: u16);
}

/// A list of cars, and a list of the batches of their words.
#[derive(Default)]
struct Cars {
    cars: Vec<Car>,
    batches: Vec<Batch>,
}

impl Cars {
    #[inline(always)]
    fn speed(&mut self, place: usize, plan: &Plan, settings: &Settings, step: u32) -> u16 {
        let car = self.cars[place];
        let mut ahead = self.cars.get(place + 1).map_or(FREE, |next| next.cell);
        if !settings.blocks.is_empty() {
            let next = settings.blocks.partition_point(|&block| block <= car.cell);
            ahead = settings.blocks.get(next).map_or(ahead, |&block| block.min(ahead));
        }
        let zone = (car.cell / plan.width) as usize;
        let speed = (car.speed + 1).min(settings.limits[zone]).min(ahead - car.cell - 1);
        let word = || self.batches[place].word(plan.seed, car.number.into(), step);
        if speed > 0 && is_met(settings.chances[zone], word) { speed - 1 } else { speed }
    }
}

impl Form for Cars {
    fn put(&mut self, _: &Plan, cars: &[Car]) {
        self.cars = cars.to_vec();
        self.batches = vec![Batch::NONE; cars.len()];
    }

    fn cars(&self) -> Vec<Car> {
        self.cars.clone()
    }

    fn find(&self, cell: u16) -> Result<usize, usize> {
        self.cars.binary_search_by_key(&cell, |car| car.cell)
    }

    fn enter(&mut self, _: &Plan, place: usize, car: Car) {
        self.cars.insert(place, car);
        self.batches.insert(place, Batch::NONE);
    }

    fn drive(&mut self, plan: &Plan, settings: &Settings, step: u32) {
        let places = 0..self.cars.len();
        let speeds: Vec<u16> = places.map(|at| self.speed(at, plan, settings, step)).collect();
        for (car, speed) in self.cars.iter_mut().zip(speeds) {
            car.speed = speed;
            car.cell += speed;
        }
    }

    fn passed(&mut self, _: usize, site: u16) -> Option<u16> {
        let first = self.cars.partition_point(|car| car.cell < site);
        let car = self.cars.get(first)?;
        (car.cell - car.speed < site).then_some(car.speed)
    }

    fn delete_from(&mut self, end: u16) {
        if self.cars.pop_if(|car| car.cell >= end).is_some() {
            self.batches.pop();
        }
    }
}

/// For each detector, the number of cars that passed it, and the sum of their speeds.
type Totals = [(u32, u32); 64];

/// A road at a step.
struct Run<F> {
    form: F,
    step: u32,
    settings: Settings,
    inlets: [Batch; 16],
    /// The counts since the last checkpoint.
    totals: Totals,
}

impl<F: Form> Run<F> {
    fn new(plan: &Plan) -> Run<F> {
        let (form, settings) = (F::default(), Settings::at(plan, 0));
        let inlets = [Batch::NONE; 16];
        let mut run = Run { form, step: 0, settings, inlets, totals: [(0, 0); 64] };
        run.form.put(plan, &[]);
        run
    }

    /// Go back to the checkpoint with this number.
    fn restore(&mut self, plan: &Plan, number: u32, checkpoints: &[Vec<Car>]) {
        self.form.put(plan, &checkpoints[number as usize]);
        self.step = number * INTERVAL;
        self.settings = Settings::at(plan, self.step);
        self.totals = [(0, 0); 64];
    }

    fn advance(&mut self, plan: &Plan, to: u32, counting: bool) {
        while self.step < to {
            if plan.edits.values().any(|dated| dated.contains_key(&self.step)) {
                self.settings = Settings::at(plan, self.step);
            }
            self.enter_cars(plan);
            self.form.drive(plan, &self.settings, self.step);
            if counting {
                self.count(plan);
            }
            self.form.delete_from(plan.end);
            self.step += 1;
        }
    }

    fn enter_cars(&mut self, plan: &Plan) {
        for (inlet, &cell) in plan.inlets.iter().enumerate() {
            if self.settings.blocks.binary_search(&cell).is_ok() {
                continue;
            }
            let Err(place) = self.form.find(cell) else { continue };
            let (stream, step) = ((1 << 63) + inlet as u64, self.step);
            let word = || self.inlets[inlet].word(plan.seed, stream, step);
            if is_met(self.settings.inflows[inlet], word) {
                let number = 16 * step + inlet as u32;
                self.form.enter(plan, place, Car { number, cell, speed: 0 });
            }
        }
    }

    fn count(&mut self, plan: &Plan) {
        for (detector, &site) in plan.detectors.iter().enumerate() {
            let passed = self.form.passed(detector, site);
            if let Some(speed) = passed.filter(|_| self.settings.watched[detector]) {
                self.totals[detector].0 += 1;
                self.totals[detector].1 += u32::from(speed);
            }
        }
    }
}

/// A run to the horizon with its checkpoints, and one for queries.
struct Replica<F> {
    plan: Plan,
    /// The number of edits so far.
    stamp: u64,
    run: Run<F>,
    aside: Run<F>,
    /// The cars at every checkpoint, and the counts of each whole interval.
    checkpoints: Vec<Vec<Car>>,
    totals: Vec<Totals>,
}

impl<F: Form> Replica<F> {
    fn open(plan: Plan) -> Replica<F> {
        let (run, aside) = (Run::new(&plan), Run::new(&plan));
        Replica { plan, stamp: 0, run, aside, checkpoints: vec![], totals: vec![] }
    }

    fn advance(&mut self, to: u32) -> String {
        while self.run.step < to {
            if self.run.step % INTERVAL == 0 {
                self.checkpoints.push(self.run.form.cars());
            }
            let next = (self.run.step / INTERVAL + 1) * INTERVAL;
            self.run.advance(&self.plan, next.min(to), true);
            if self.run.step == next {
                self.totals.push(self.run.totals);
                self.run.totals = [(0, 0); 64];
            }
        }
        format!(r#"{{"horizon":{}}}"#, self.run.step)
    }

    /// Set a value, and compute again the steps that it changes.
    fn edit(&mut self, object: (String, usize), step: u32, value: u32) -> String {
        self.stamp += 1;
        let old = self.plan.edits.entry(object).or_default().insert(step, value);
        let horizon = self.run.step;
        if step < horizon && old != Some(value) {
            let number = step / INTERVAL;
            self.run.restore(&self.plan, number, &self.checkpoints);
            self.checkpoints.truncate(number as usize);
            self.totals.truncate(number as usize);
            self.advance(horizon);
        }
        format!(r#"{{"stamp":[{},0]}}"#, self.stamp)
    }

    /// Bring the run for queries to a step, from the checkpoint before this step.
    fn go_aside(&mut self, step: u32, counting: bool) {
        self.aside.restore(&self.plan, step / INTERVAL, &self.checkpoints);
        self.aside.advance(&self.plan, step, counting);
    }

    fn cells(&mut self, step: u32) -> String {
        let cars = if step == self.run.step {
            self.run.form.cars()
        } else {
            self.go_aside(step, false);
            self.aside.form.cars()
        };
        let mut row = vec![b'.'; self.plan.length.into()];
        let blocks = Settings::at(&self.plan, step).blocks;
        blocks.iter().for_each(|&block| row[block as usize] = b'#');
        cars.iter().for_each(|car| row[car.cell as usize] = b'0' + car.speed as u8);
        format!(r#"{{"cells":"{}"}}"#, String::from_utf8(row).unwrap())
    }

    fn count(&mut self, detector: usize, from: u32, to: u32) -> String {
        let (mut begin, mut cars, mut speeds) = (from, 0, 0);
        while begin < to {
            let end = to.min((begin / INTERVAL + 1) * INTERVAL);
            let counted = if end - begin == INTERVAL {
                self.totals[(begin / INTERVAL) as usize][detector]
            } else {
                self.count_part(detector, begin, end)
            };
            (begin, cars, speeds) = (end, cars + counted.0, speeds + counted.1);
        }
        format!(r#"{{"cars":{cars},"speeds":{speeds}}}"#)
    }

    /// Return the count of a detector in some steps of an interval.
    fn count_part(&mut self, detector: usize, from: u32, to: u32) -> (u32, u32) {
        self.go_aside(from, true);
        let before = self.aside.totals[detector];
        self.aside.advance(&self.plan, to, true);
        let after = self.aside.totals[detector];
        (after.0 - before.0, after.1 - before.1)
    }
}

/// Return the text of a field's value in a line without spaces.
fn value<'a>(line: &'a str, field: &str) -> &'a str {
    let (_, rest) = line.split_once(&format!("\"{field}\":")).expect(field);
    &rest[..rest.find(",\"").or(rest.find('}')).unwrap()]
}

/// Return the numbers of a field's value, without the structure of its lists.
fn numbers(line: &str, field: &str) -> Vec<u64> {
    let words = value(line, field).split(|letter: char| !letter.is_ascii_digit());
    words.filter_map(|word| word.parse().ok()).collect()
}

fn number(line: &str, field: &str) -> u32 {
    numbers(line, field)[0] as u32
}

fn read_plan(line: &str) -> Plan {
    let (limits, chances, inflows) = ([0; 64], [0; 64], [0; 16]);
    let (blocks, watched, random) = (vec![], [true; 64], false);
    let mut settings = Settings { limits, chances, inflows, blocks, watched, random };
    for (zone, pair) in numbers(line, "zones").chunks(2).enumerate() {
        settings.put("limit", zone, pair[0] as u32);
        settings.put("slow", zone, pair[1] as u32);
    }
    let mut inlets = vec![];
    for (inlet, pair) in numbers(line, "inlets").chunks(2).enumerate() {
        inlets.push(pair[0] as u16);
        settings.put("inflow", inlet, pair[1] as u32);
    }
    let length = number(line, "length") as u16;
    Plan {
        length,
        width: number(line, "zone") as u16,
        end: length - number(line, "exit") as u16,
        inlets,
        detectors: numbers(line, "detectors").into_iter().map(|site| site as u16).collect(),
        seed: numbers(line, "words")[0],
        settings,
        edits: Edits::new(),
    }
}

/// Return the kind and the index of the object of an edit.
fn object(line: &str) -> (String, usize) {
    let kind = value(line, "object").split('"').nth(1).unwrap();
    (kind.to_string(), number(line, "object") as usize)
}

/// Answer the lines of standard input, and print the times.
fn serve<F: Form>() {
    let (mut input, mut output) = (BufReader::new(stdin()), BufWriter::new(stdout()));
    let mut line = String::new();
    input.read_line(&mut line).unwrap();
    let mut replica = Replica::<F>::open(read_plan(&line));
    let mut answer = String::from(r#"{"open":1}"#);
    let mut spent = [0.0; 3];
    loop {
        writeln!(output, "{answer}").unwrap();
        if input.buffer().is_empty() {
            output.flush().unwrap();
        }
        line.clear();
        if input.read_line(&mut line).unwrap() == 0 {
            break;
        }
        let begin = Instant::now();
        let number = |field| number(&line, field);
        let (kind, reply) = match line.split('"').nth(1) {
            Some("advance") => (0, replica.advance(number("to"))),
            Some("edit") => (1, replica.edit(object(&line), number("step"), number("value"))),
            Some("cells") => (2, replica.cells(number("step"))),
            Some("count") => {
                let detector = number("detector") as usize;
                (2, replica.count(detector, number("from"), number("to")))
            }
            name => panic!("{name:?} is not a command here"),
        };
        spent[kind] += begin.elapsed().as_secs_f64() * 1e3;
        answer = reply;
    }
    let [advances, edits, queries] = spent;
    eprintln!("advances={advances:.3} edits={edits:.3} queries={queries:.3}");
}

fn main() {
    match std::env::args().nth(1).as_deref() {
        Some("cars") => serve::<Cars>(),
        Some("columns") => serve::<Columns>(),
        _ => panic!("cars or columns"),
    }
}
