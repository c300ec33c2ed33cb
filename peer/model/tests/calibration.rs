//! Calibration: the worked figures and the edges of each rule.

use model::*;

const WORKED: Settings = Settings { g: 1.0 / 256.0, lanes: 1, period: 10, length: 0.5, start: 0, end: 2 };
const FLOW: [f64; 3] = [960.0, 1_920.0, 960.0];
const OCCUPANCY: [f64; 3] = [1.0 / 16.0, 1.0 / 8.0, 3.0 / 8.0];

fn refused<T>(number: u32, place: u32) -> Answer<T> {
    Err(Refusal { number, place })
}

#[test]
fn worked_case() {
    let (diagram, row) = calibrate(&FLOW, &OCCUPANCY, &WORKED).unwrap();
    assert_eq!(diagram.to_array(), [60.0, 1_920.0, 32.0, 15.0, 160.0]);
    assert_eq!(row.to_array(), [21_845, 5_461, 5_333, 80_000]);
}

#[test]
fn shapes() {
    let go = |flow: &[f64], occupancy: &[f64], start, end| {
        calibrate(flow, occupancy, &Settings { start, end, g: f64::NAN, ..WORKED })
    };
    assert_eq!(go(&FLOW, &OCCUPANCY[..2], 0, 2), refused(1, 0));
    assert_eq!(go(&FLOW, &OCCUPANCY, 0, 4), refused(1, 0));
    assert_eq!(go(&FLOW, &OCCUPANCY, 2, 1), refused(1, 0));
    assert_eq!(go(&FLOW, &OCCUPANCY, usize::MAX, usize::MAX), refused(1, 0));
    assert_eq!(go(&vec![0.0; 65_537], &vec![0.0; 65_537], 0, 1), refused(1, 0));
    assert_eq!(go(&vec![0.0; 65_536], &vec![0.0; 65_536], 0, 1), refused(9, 0));
    assert_eq!(go(&FLOW, &OCCUPANCY, 3, 3), refused(9, 0));
}

#[test]
fn settings() {
    let go = |settings: Settings| calibrate(&FLOW, &OCCUPANCY, &settings).err().map(|refusal| refusal.number);
    let (low, high) = (1.0 / 1_024.0, 1.0 / 16.0);
    for g in [f64::next_down(low), f64::next_up(high), 0.0, -low, f64::NAN, f64::INFINITY] {
        assert_eq!(go(Settings { g, ..WORKED }), Some(9));
    }
    for length in [f64::next_down(1.0 / 64.0), f64::next_up(8.0), f64::NAN, f64::NEG_INFINITY] {
        assert_eq!(go(Settings { length, ..WORKED }), Some(9));
    }
    for lanes in [0, 13, u32::MAX] {
        assert_eq!(go(Settings { lanes, ..WORKED }), Some(9));
    }
    for period in [0, 61, u32::MAX] {
        assert_eq!(go(Settings { period, ..WORKED }), Some(9));
    }
    assert_ne!(go(Settings { g: low, lanes: 12, ..WORKED }), Some(9));
    assert_ne!(go(Settings { g: high, period: 60, ..WORKED }), Some(9));
    assert_ne!(go(Settings { length: 8.0, period: 1, ..WORKED }), Some(9));
    assert_ne!(go(Settings { length: 1.0 / 64.0, ..WORKED }), Some(9));
}

#[test]
fn samples() {
    let read = |flow, occupancy| Sample::read(flow, occupancy, 0.5, 3);
    let nan = f64::NAN;
    assert_eq!(read(20_000.0, 1.0), Sample::Good { flow: 20_000.0, density: 6.0 });
    assert_eq!(read(nan, nan), Sample::Unusable(Cause::FlowNotFinite));
    assert_eq!(read(f64::INFINITY, 0.0), Sample::Unusable(Cause::FlowNotFinite));
    assert_eq!(read(f64::next_up(20_000.0), nan), Sample::Unusable(Cause::FlowOutOfRange));
    assert_eq!(read(-f64::from_bits(1), nan), Sample::Unusable(Cause::FlowOutOfRange));
    assert_eq!(read(0.0, f64::NEG_INFINITY), Sample::Unusable(Cause::OccupancyNotFinite));
    assert_eq!(read(0.0, f64::next_up(1.0)), Sample::Unusable(Cause::OccupancyOutOfRange));
    assert_eq!(read(0.0, -f64::from_bits(1)), Sample::Unusable(Cause::OccupancyOutOfRange));
    let Sample::Good { flow, density } = read(-0.0, -0.0) else { panic!("minus zero is zero") };
    assert_eq!((flow.to_bits(), density.to_bits()), (0, 0));
}

#[test]
fn first_unusable_sample() {
    let mut flow = FLOW;
    flow[2] = -1.0;
    assert_eq!(calibrate(&flow, &OCCUPANCY, &WORKED), refused(9, 3));
    let mut occupancy = OCCUPANCY;
    occupancy[1] = 2.0;
    assert_eq!(calibrate(&flow, &occupancy, &WORKED), refused(9, 2));
    assert_eq!(calibrate(&flow, &occupancy, &Settings { end: 0, ..WORKED }), refused(9, 2));
}

#[test]
fn nothing_to_fit() {
    let fit = |flow: [f64; 3], occupancy: [f64; 3], settings: Settings| calibrate(&flow, &occupancy, &settings);
    // empty stretch
    assert_eq!(fit(FLOW, OCCUPANCY, Settings { end: 0, ..WORKED }), refused(10, 0));
    assert_eq!(calibrate(&[], &[], &Settings { end: 0, ..WORKED }), refused(10, 0));
    // squares of the free stretch zero, by zeros and by rounding
    assert_eq!(fit(FLOW, [0.0, -0.0, 0.5], WORKED), refused(10, 0));
    assert_eq!(fit(FLOW, [1e-300, 1e-300, 0.5], WORKED), refused(10, 0));
    // speed zero
    assert_eq!(fit([0.0, -0.0, 5.0], OCCUPANCY, WORKED), refused(10, 0));
    // no sample above critical
    assert_eq!(fit(FLOW, [1.0 / 16.0, 1.0 / 8.0, 1.0 / 8.0], WORKED), refused(10, 0));
    // wave zero: the congested sample flows at capacity
    assert_eq!(fit([960.0, 1_920.0, 1_920.0], OCCUPANCY, WORKED), refused(10, 0));
    // the speed is so small that critical is infinite
    assert_eq!(fit([1e-320, 0.0, 20_000.0], [1.0, 1.0, 1.0], Settings { g: 1.0 / 16.0, ..WORKED }), refused(10, 0));
}

#[test]
fn row_value_limits() {
    let diagram = Diagram { speed: 60.0, capacity: 1_920.0, critical: 32.0, wave: 15.0, jam: 160.0 };
    let row = |diagram: Diagram| row_values(&diagram, 1, 1.0).map(RowValues::to_array);
    assert_eq!(row(diagram), Ok([1_092, 273, 533, 160_000]));
    assert_eq!(row(Diagram { speed: 3_600.0, wave: 3_600.0, ..diagram }), Ok([65_536, 65_536, 533, 160_000]));
    assert_eq!(row(Diagram { speed: 3_600.1, ..diagram }), refused(11, 1));
    assert_eq!(row(Diagram { wave: 3_600.1, ..diagram }), refused(11, 2));
    assert_eq!(row(Diagram { wave: 0.01, ..diagram }), refused(11, 2));
    assert_eq!(row(Diagram { capacity: 3.6, ..diagram }), Ok([1_092, 273, 1, 160_000]));
    assert_eq!(row(Diagram { capacity: 3.5, ..diagram }), refused(11, 3));
    assert_eq!(row(Diagram { jam: 4_000.0, ..diagram }), Ok([1_092, 273, 533, 4_000_000]));
    assert_eq!(row(Diagram { jam: f64::next_up(4_000.0), ..diagram }), refused(11, 4));
    assert_eq!(row(Diagram { jam: f64::INFINITY, ..diagram }), refused(11, 4));
    assert_eq!(row(Diagram { jam: 0.001, ..diagram }), Ok([1_092, 273, 533, 1]));
    assert_eq!(row(Diagram { jam: 0.0009, speed: f64::NAN, ..diagram }), refused(11, 1));
}

#[test]
fn density_is_divided_first() {
    let g = 0.003;
    let sample = Sample::read(1.0, 0.1, g, 3);
    assert_eq!(sample, Sample::Good { flow: 1.0, density: 0.1 / g * 3.0 });
    assert_ne!(0.1 / g * 3.0, 0.1 * 3.0 / g);
}
