//! The program `calibrate_trials` calibrates drawn sets of samples and prints a digest of the answers' bits after each 2,048 of them. Here
//! the same sets are drawn and calibrated by the model, which must come to the stored output of the program, digest for digest.

use model::{calibrate, fit, Answer, Diagram, Refusal, RowValues, Settings};

fn stepped(x: u64) -> u64 {
    let a = x ^ (x << 13);
    let b = a ^ (a >> 7);
    b ^ (b << 17)
}

fn unit(draw: u64) -> f64 {
    (draw >> 32) as f64 / 4_294_967_296.0
}

fn edge(draw: u64) -> f64 {
    [
        0.0,
        -0.0,
        1.0,
        20_000.0,
        f64::INFINITY,
        f64::NEG_INFINITY,
        f64::NAN,
        5e-324,
        2.2250738585072014e-308,
        f64::MAX,
        20_000.000000000004,
        1.0000000000000002,
        1e-160,
        0.125,
        960.0,
        0.9999999999999999,
    ][(draw >> 40) as usize % 16]
}

fn drawn(kind: u64, draw: u64, most: f64) -> f64 {
    let scale = match kind {
        8 => 1e-155,
        9 => 1e-161,
        10 => 1e-300,
        11 => 5e-324,
        _ => 1.0,
    };
    if kind == 12 && (draw >> 20).is_multiple_of(8) {
        edge(draw)
    } else if kind < 4 {
        ((draw >> 24) % 17) as f64 / 16.0 * most
    } else {
        unit(draw) * most * scale
    }
}

/// A digest of words, in their order.
struct Digest(u64);

impl Digest {
    fn word(&mut self, word: u64) {
        self.0 = stepped(self.0 ^ word);
    }

    fn diagram(&mut self, diagram: Diagram) {
        for number in diagram.to_array() {
            self.word(if number.is_nan() { 1 } else { number.to_bits() });
        }
    }

    fn refusal(&mut self, refusal: Refusal) {
        self.word(refusal.number.into());
        self.word(refusal.place.into());
    }
}

/// The samples and settings of one set, and the draw that the next one starts from.
fn set(draw: u64) -> (Vec<f64>, Vec<f64>, Settings, u64) {
    let a = stepped(draw);
    let kind = (a >> 32) % 16;
    let n = (a % 48) as usize;
    let m = if kind == 15 { ((a >> 8) % 48) as usize } else { n };
    let mut x = a;
    let mut fill = |early: f64, most: f64| -> Vec<f64> {
        let number = |i| {
            x = stepped(x);
            drawn(kind, x, if i < 16 { early } else { most })
        };
        (0..48).map(number).collect()
    };
    let (mut flow, mut occupancy) = (fill(20_000.0, 20_000.0), fill(0.25, 1.0));
    flow.truncate(n);
    occupancy.truncate(m);
    let a = stepped(x);
    let b = stepped(a);
    let small = ((a >> 50) % 16) as usize;
    let settings = Settings {
        g: if kind == 13 { edge(a) } else { 1.0 / (16.0 + unit(a) * 1_008.0) },
        lanes: ((a >> 8) % 13) as u32,
        period: ((b >> 8) % 61) as u32,
        length: if kind == 14 { edge(b) } else { 0.015625 + unit(b) * 8.0 },
        start: ((b >> 50) % 3) as usize,
        end: if kind != 15 && n < small { n } else { small },
    };
    (flow, occupancy, settings, stepped(x))
}

#[test]
fn the_digests_of_the_trials() {
    let stored = include_str!("../../../crates/calibrate_trials/stdout");
    let mut digest = Digest(1);
    let mut draw = 88_172_645_463_325_252;
    let mut met = [0; 12];
    for line in stored.lines() {
        for _ in 0..2_048 {
            let (flow, occupancy, settings, next) = set(draw);
            match fit(&flow, &occupancy, &settings) {
                Ok(diagram) => digest.diagram(diagram),
                Err(refusal) => digest.refusal(refusal),
            }
            let answer: Answer<(Diagram, RowValues)> = calibrate(&flow, &occupancy, &settings);
            met[answer.map_or_else(|refusal| refusal.number as usize, |_| 0)] += 1;
            match answer {
                Ok((diagram, row)) => {
                    digest.diagram(diagram);
                    row.to_array().into_iter().for_each(|number| digest.word(number.into()));
                }
                Err(refusal) => digest.refusal(refusal),
            }
            draw = next;
        }
        assert_eq!(digest.0.to_string(), line);
    }
    // Accepted sets and every number that a calibration is refused with are among them.
    assert_eq!(stored.lines().count(), 8);
    for number in [0, 1, 9, 10, 11] {
        assert!(met[number] > 0, "no set gave {number}");
    }
}
