//! The road of `hand_written.rs` in columns: cells, speeds and words have a list each, and one loop
//! without branches computes all speeds. Words are drawn for 16 steps at once.

use super::{Car, FREE, Form, Plan, Settings, draw};

/// The number of cells of the longest road.
const CELLS: usize = 8192;
/// The places in a row of words: enough for the cars of a full road and those that enter within 16 steps. A power of two, so
/// that masking the lower bits keeps a place within bounds.
const PLACES: usize = 16384;
/// The length of a row. Not a power of two, so that the words of one car do not compete for the same cache lines.
const ROW: usize = PLACES + 32;

/// A column for each field of a car, and a row of words for each of 16 steps.
#[derive(Default)]
pub struct Columns {
    numbers: Vec<u32>,
    cells: Vec<u16>,
    speeds: Vec<u16>,
    /// The place of each car's words in the rows.
    places: Vec<u16>,
    /// The nearest car or blocked cell ahead of each car, computed again in each step.
    ahead: Vec<u16>,
    rows: Vec<[u16; ROW]>,
    /// The number of places that are in use in a row.
    taken: usize,
    /// The batch whose words the rows have, if any.
    drawn: Option<u32>,
    /// For each detector, the first car at or past its cell.
    past: Vec<usize>,
    zone_of: Vec<u8>,
}

impl Columns {
    /// Draw the words of all cars that can move within the batch: the first car of a queue can move in the first step, the car
    /// behind it in the second step, and so on.
    fn draw_all(&mut self, seed: u64, batch: u32) {
        (self.drawn, self.taken) = (Some(batch), 0);
        for place in 0..self.cells.len() {
            self.places[place] = self.taken as u16;
            match self.cells.get(place + 16) {
                Some(ahead) if ahead - self.cells[place] == 16 => self.taken += 1,
                _ => self.draw_one(seed, self.numbers[place], batch),
            }
        }
    }

    fn draw_one(&mut self, seed: u64, number: u32, batch: u32) {
        for (row, word) in draw(seed, number.into(), batch).into_iter().enumerate() {
            self.rows[row][self.taken] = word;
        }
        self.taken += 1;
    }
}

impl Form for Columns {
    fn put(&mut self, plan: &Plan, cars: &[Car]) {
        self.numbers = cars.iter().map(|car| car.number).collect();
        self.cells = cars.iter().map(|car| car.cell).collect();
        self.speeds = cars.iter().map(|car| car.speed).collect();
        self.places = vec![0; cars.len()];
        self.rows.resize(16, [0; ROW]);
        self.drawn = None;
        let past = |site| self.cells.partition_point(|cell| cell < site);
        self.past = plan.detectors.iter().map(past).collect();
        let zones = (0..CELLS).map(|cell| (cell / usize::from(plan.width)) as u8);
        self.zone_of.extend(zones.skip(self.zone_of.len()));
    }

    fn cars(&self) -> Vec<Car> {
        let parts = self.numbers.iter().zip(&self.cells).zip(&self.speeds);
        parts.map(|((&number, &cell), &speed)| Car { number, cell, speed }).collect()
    }

    fn find(&self, cell: u16) -> Result<usize, usize> {
        self.cells.binary_search(&cell)
    }

    fn enter(&mut self, plan: &Plan, place: usize, car: Car) {
        self.numbers.insert(place, car.number);
        self.cells.insert(place, car.cell);
        self.speeds.insert(place, car.speed);
        self.places.insert(place, self.taken as u16);
        // In the first step of a batch, its words are drawn together with those of all cars.
        let batch = car.number / 256;
        if self.drawn == Some(batch) {
            self.draw_one(plan.seed, car.number, batch);
        }
        for (past, &site) in self.past.iter_mut().zip(&plan.detectors) {
            *past += usize::from(car.cell < site);
        }
    }

    fn drive(&mut self, plan: &Plan, settings: &Settings, step: u32) {
        if settings.random && self.drawn != Some(step / 16) {
            self.draw_all(plan.seed, step / 16);
        }
        self.ahead.clear();
        self.ahead.extend(self.cells.iter().skip(1));
        self.ahead.push(FREE);
        for &block in &settings.blocks {
            let first = self.cells.partition_point(|&cell| cell < block);
            if let Some(ahead) = first.checked_sub(1).map(|behind| &mut self.ahead[behind]) {
                *ahead = block.min(*ahead);
            }
        }
        let row = &self.rows[step as usize % 16];
        let zone_of: &[u8; CELLS] = self.zone_of.first_chunk().unwrap();
        let (limits, chances) = (&settings.limits, &settings.chances);
        let cars = self.cells.iter_mut().zip(&mut self.speeds).zip(&self.ahead).zip(&self.places);
        for (((cell, speed), ahead), place) in cars {
            let zone = zone_of[*cell as usize % CELLS] as usize % 64;
            let wanted = (*speed + 1).min(limits[zone]).min(ahead - *cell - 1);
            let slows = u32::from(row[*place as usize % PLACES]) < chances[zone];
            *speed = wanted - u16::from((wanted > 0) & slows);
            *cell += *speed;
        }
    }

    fn passed(&mut self, detector: usize, site: u16) -> Option<u16> {
        let next = self.past[detector].checked_sub(1).filter(|&next| self.cells[next] >= site)?;
        self.past[detector] = next;
        Some(self.speeds[next])
    }

    fn delete_from(&mut self, end: u16) {
        if self.cells.pop_if(|cell| *cell >= end).is_some() {
            self.numbers.pop();
            self.speeds.pop();
            self.places.pop();
        }
    }
}
