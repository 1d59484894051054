// The error over the iterations, as a picture.
use std::fmt::Write;

const WIDTH: f64 = 940.0;
const HEIGHT: f64 = 300.0;
const LEFT: f64 = 76.0;
const RIGHT: f64 = 20.0;
const TOP: f64 = 18.0;
const BOTTOM: f64 = 42.0;
/// More points than this the picture can't show.
const POINTS: usize = 900;

/// A round number near a fifth of a span: 1, 2 or 5 times a power of ten.
fn step(span: f64) -> f64 {
    let rough = span / 5.0;
    let power = 10_f64.powf(rough.log10().floor());
    [1.0, 2.0, 5.0, 10.0].into_iter().map(|times| times * power).find(|&step| step >= rough * 0.999).unwrap_or(power)
}

/// The multiples of a step from one number to another.
fn ticks(from: f64, to: f64, step: f64) -> Vec<f64> {
    let first = (from / step).ceil() as i64;
    (first..).map(|place| place as f64 * step).take_while(|&tick| tick <= to + step * 1e-6).take(12).collect()
}

struct Frame {
    iterations: f64,
    low: f64,
    high: f64,
}

impl Frame {
    fn of(errors: &[f64]) -> Frame {
        let (least, most) = errors.iter().fold((f64::MAX, f64::MIN), |(least, most), &error| (least.min(error), most.max(error)));
        let room = ((most - least) * 0.08).max(most.abs() * 1e-6).max(1e-12);
        Frame { iterations: (errors.len() - 1).max(1) as f64, low: least - room, high: most + room }
    }

    fn x(&self, iteration: f64) -> f64 {
        LEFT + (WIDTH - LEFT - RIGHT) * iteration / self.iterations
    }

    fn y(&self, error: f64) -> f64 {
        TOP + (HEIGHT - TOP - BOTTOM) * (self.high - error) / (self.high - self.low)
    }

    fn axes(&self) -> String {
        let mut out = String::new();
        let between = step(self.high - self.low);
        let digits = (-between.log10().floor()).clamp(0.0, 12.0) as usize;
        for error in ticks(self.low, self.high, between) {
            let y = self.y(error);
            let _ = write!(out, "<line class=\"grid\" x1=\"{LEFT}\" x2=\"{:.1}\" y1=\"{y:.1}\" y2=\"{y:.1}\"/>", WIDTH - RIGHT);
            let _ = write!(out, "<text class=\"tick\" x=\"{:.1}\" y=\"{:.1}\" text-anchor=\"end\">{error:.digits$}</text>", LEFT - 10.0, y + 4.0);
        }
        for iteration in ticks(0.0, self.iterations, step(self.iterations).max(1.0)) {
            let (x, y) = (self.x(iteration), HEIGHT - BOTTOM);
            let _ = write!(out, "<line class=\"axis\" x1=\"{x:.1}\" x2=\"{x:.1}\" y1=\"{y:.1}\" y2=\"{:.1}\"/>", y + 5.0);
            let _ = write!(out, "<text class=\"tick\" x=\"{x:.1}\" y=\"{:.1}\" text-anchor=\"middle\">{iteration}</text>", y + 20.0);
        }
        let y = HEIGHT - BOTTOM;
        let _ = write!(out, "<line class=\"axis\" x1=\"{LEFT}\" x2=\"{:.1}\" y1=\"{y:.1}\" y2=\"{y:.1}\"/>", WIDTH - RIGHT);
        out
    }
}

/// The errors before each iteration and after the last.
pub fn curve(errors: &[f64]) -> String {
    let (frame, last) = (Frame::of(errors), errors.len() - 1);
    let every = last.div_ceil(POINTS).max(1);
    let places = (0..last).step_by(every).chain([last]);
    let points: Vec<String> = places.map(|place| format!("{:.1},{:.1}", frame.x(place as f64), frame.y(errors[place]))).collect();
    let line = points.join(" ");
    let (x, y, floor) = (frame.x(last as f64), frame.y(errors[last]), HEIGHT - BOTTOM);
    let mut out = format!("<svg class=\"curve\" viewBox=\"0 0 {WIDTH} {HEIGHT}\" role=\"img\" aria-label=\"error over iterations\">");
    out += &frame.axes();
    let _ = write!(out, "<polygon class=\"under\" points=\"{LEFT},{floor} {line} {x:.1},{floor}\"/><polyline class=\"line\" points=\"{line}\"/>");
    for (x, y) in [(LEFT, frame.y(errors[0])), (x, y)] {
        let _ = write!(out, "<circle class=\"dot\" cx=\"{x:.1}\" cy=\"{y:.1}\" r=\"4\"/>");
    }
    let middle = (LEFT + WIDTH - RIGHT) / 2.0;
    let _ = write!(out, "<text class=\"tick\" x=\"{middle:.1}\" y=\"{:.1}\" text-anchor=\"middle\">iterations done</text></svg>", HEIGHT - 4.0);
    out
}

#[cfg(test)]
mod tests {
    use super::*;

    #[test]
    fn steps_are_round_and_ticks_few() {
        assert_eq!(step(100.0), 20.0);
        assert_eq!(ticks(0.0, 100.0, 20.0), [0.0, 20.0, 40.0, 60.0, 80.0, 100.0]);
        for span in [1e-9, 0.013, 1.0, 7.0, 999_999.0] {
            assert!((2..=7).contains(&ticks(0.0, span, step(span)).len()), "{span}");
        }
    }

    #[test]
    fn any_errors_have_a_picture() {
        let many: Vec<f64> = (0..=1_000_000).map(|place| 1.0 / (place as f64 + 1.0)).collect();
        for errors in [&[0.1, 0.1][..], &[0.0, 0.0], &[0.25, 0.1, 0.09], &many] {
            let picture = curve(errors);
            assert!(picture.len() < 60_000 && !picture.contains("NaN") && !picture.contains("inf"));
        }
    }
}
