//! Calibration of a triangular diagram from detector samples, each operation rounded once in the order written.

use crate::{Answer, Refusal, MOST_FLOW, MOST_JAM, MOST_SAMPLES, ONE};

/// The settings of a calibration.
#[derive(Clone, Copy, Debug, PartialEq)]
pub struct Settings {
    /// The effective vehicle length, 1/1,024 to 1/16 mile.
    pub g: f64,
    /// Lanes, 1 to 12.
    pub lanes: u32,
    /// The period in whole seconds, 1 to 60.
    pub period: u32,
    /// The cell length, 1/64 to 8 miles.
    pub length: f64,
    /// The stretch of samples known to be in free flow, counted from 0.
    pub start: usize,
    /// The end of that stretch, not included.
    pub end: usize,
}

impl Settings {
    /// Every setting is in its range; a setting that is not a number is in none.
    fn usable(&self) -> bool {
        (1.0 / 1024.0..=1.0 / 16.0).contains(&self.g)
            && (1..=12).contains(&self.lanes)
            && (1..=60).contains(&self.period)
            && (1.0 / 64.0..=8.0).contains(&self.length)
    }
}

/// Why a sample is unusable.
#[derive(Clone, Copy, Debug, PartialEq, Eq)]
pub enum Cause {
    FlowNotFinite,
    FlowOutOfRange,
    OccupancyNotFinite,
    OccupancyOutOfRange,
}

/// A sample as it is read.
#[derive(Clone, Copy, Debug, PartialEq)]
pub enum Sample {
    Good { flow: f64, density: f64 },
    Unusable(Cause),
}

impl Sample {
    /// Reads one sample. Minus zero counts as zero.
    #[inline]
    pub fn read(flow: f64, occupancy: f64, g: f64, lanes: u32) -> Sample {
        let unusable = if !flow.is_finite() {
            Cause::FlowNotFinite
        } else if !(0.0..=20_000.0).contains(&flow) {
            Cause::FlowOutOfRange
        } else if !occupancy.is_finite() {
            Cause::OccupancyNotFinite
        } else if !(0.0..=1.0).contains(&occupancy) {
            Cause::OccupancyOutOfRange
        } else {
            // Adding plus zero changes no number but minus zero.
            return Sample::Good { flow: flow + 0.0, density: density(occupancy + 0.0, g, lanes) };
        };
        Sample::Unusable(unusable)
    }
}

#[inline]
fn density(occupancy: f64, g: f64, lanes: u32) -> f64 {
    occupancy / g * f64::from(lanes)
}

/// A triangular diagram.
#[derive(Clone, Copy, Debug, PartialEq)]
pub struct Diagram {
    pub speed: f64,
    pub capacity: f64,
    pub critical: f64,
    pub wave: f64,
    pub jam: f64,
}

impl Diagram {
    /// The five doubles in the order of the rules.
    pub fn to_array(self) -> [f64; 5] {
        [self.speed, self.capacity, self.critical, self.wave, self.jam]
    }
}

/// The four numbers of a table row that a diagram makes: v, w, F and J.
#[derive(Clone, Copy, Debug, PartialEq, Eq)]
pub struct RowValues {
    pub v: u32,
    pub w: u32,
    pub capacity: u32,
    pub jam: u32,
}

impl RowValues {
    /// The four numbers in the order of the table's columns.
    pub fn to_array(self) -> [u32; 4] {
        [self.v, self.w, self.capacity, self.jam]
    }
}

/// Fits the diagram to the samples: numbers 1, 9 and 10.
pub fn fit(flow: &[f64], occupancy: &[f64], settings: &Settings) -> Answer<Diagram> {
    let &Settings { g, lanes, start, end, .. } = settings;
    if flow.len() != occupancy.len() || flow.len() > MOST_SAMPLES || end > flow.len() || end < start {
        return Err(Refusal::SHAPE);
    }
    if !settings.usable() {
        return Err(Refusal::new(9, 0));
    }

    let pairs = || flow.iter().zip(occupancy);
    let mut capacity = 0.0;
    for (at, (&flow, &occupancy)) in pairs().enumerate() {
        match Sample::read(flow, occupancy, g, lanes) {
            Sample::Good { flow, .. } => capacity = flow.max(capacity),
            Sample::Unusable(_) => return Err(Refusal::new(9, at + 1)),
        }
    }

    // Every sample is good from here on.
    let points = pairs().map(|(&flow, &occupancy)| (flow + 0.0, density(occupancy + 0.0, g, lanes)));
    let speed = slope(points.clone().take(end).skip(start))?;
    let critical = capacity / speed;
    let congested = points.filter(|&(_, density)| density > critical);
    let wave = slope(congested.map(|(flow, density)| (capacity - flow, density - critical)))?;
    let jam = critical + capacity / wave;
    Ok(Diagram { speed, capacity, critical, wave, jam })
}

/// The slope Σ(y×x) / Σ(x×x) of the line through zero that fits the points (y, x) best, or number 10 where the sum of
/// squares or the slope is zero. Without a point the sum of squares is zero.
fn slope(points: impl Iterator<Item = (f64, f64)>) -> Answer<f64> {
    let (products, squares) =
        points.fold((0.0, 0.0), |(products, squares), (y, x)| (products + y * x, squares + x * x));
    let slope = products / squares;
    if squares == 0.0 || slope == 0.0 {
        return Err(Refusal::new(10, 0));
    }
    Ok(slope)
}

/// The row values of a diagram, rounded down: number 11, at 1 to 4 for v, w, F and J.
pub fn row_values(diagram: &Diagram, period: u32, length: f64) -> Answer<RowValues> {
    let period = f64::from(period);
    let share = |speed: f64| speed * period / (3600.0 * length) * f64::from(ONE);
    let values = [
        (share(diagram.speed), ONE),
        (share(diagram.wave), ONE),
        (diagram.capacity * period * 1000.0 / 3600.0, MOST_FLOW),
        (diagram.jam * length * 1000.0, MOST_JAM),
    ];
    let mut rounded = [0; 4];
    for (place, (&(value, most), rounded)) in values.iter().zip(&mut rounded).enumerate() {
        if !(1.0..=f64::from(most)).contains(&value) {
            return Err(Refusal::new(11, place + 1));
        }
        *rounded = value as u32; // rounds toward zero, and the value is positive
    }
    let [v, w, capacity, jam] = rounded;
    Ok(RowValues { v, w, capacity, jam })
}

/// From the two lists of samples and the settings to the diagram and the row's four numbers: numbers 1, 9, 10 and 11.
pub fn calibrate(flow: &[f64], occupancy: &[f64], settings: &Settings) -> Answer<(Diagram, RowValues)> {
    let diagram = fit(flow, occupancy, settings)?;
    let values = row_values(&diagram, settings.period, settings.length)?;
    Ok((diagram, values))
}
