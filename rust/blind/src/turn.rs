//! The azimuths of a cut's rays, in degrees from north by the east.
use polar::Hundredths;

/// A whole turn.
pub const WHOLE: Hundredths = Hundredths(36000);

/// Where a ray begins, has its middle and ends; `from` is at most `to`, and neither need lie in 0 to 360.
#[derive(Debug, Clone, Copy, PartialEq)]
pub struct RayAngles {
    pub from: f64,
    pub middle: f64,
    pub to: f64,
}

/// The rays of a cut.
#[derive(Debug, Clone, PartialEq)]
pub struct Turn {
    rays: Vec<RayAngles>,
    /// whether a ray ends where the next one begins; of the last ray the next is the first
    joined: Vec<bool>,
}

/// An azimuth from 0.00 to 359.99, rounded.
pub fn shown(degrees: f64) -> Hundredths {
    Hundredths(((degrees * 100.0).round() as i64).rem_euclid(WHOLE.0.into()) as i32)
}

impl Turn {
    /// A whole turn of rays of one width, the first of which begins at `start`.
    pub fn even(start: Hundredths, rays: usize) -> Turn {
        let at = |halves: usize| (f64::from(start.0) * (2 * rays) as f64 + halves as f64 * f64::from(WHOLE.0)) / (200 * rays) as f64;
        let rays: Vec<RayAngles> =
            (0..rays).map(|ray| RayAngles { from: at(2 * ray), middle: at(2 * ray + 1), to: at(2 * ray + 2) }).collect();
        Turn { joined: vec![true; rays.len()], rays }
    }

    /// Rays of which only the middles are known. The width of a ray is the median of the steps from one middle to the next. Where
    /// the step is under twice the width two rays meet half-way; else something was left out between them. None where no
    /// width comes out.
    pub fn of_middles(middles: &[f64]) -> Option<Turn> {
        let count = middles.len();
        let next = |ray: usize| (ray + 1) % count;
        let steps: Vec<f64> = (0..count).map(|ray| (middles[next(ray)] - middles[ray]).rem_euclid(360.0)).collect();
        let mut sorted = steps.clone();
        sorted.sort_by(f64::total_cmp);
        let width = if count == 1 { 360.0 } else { sorted[(count - 1) / 2] };
        if width <= 0.0 {
            return None;
        }
        let joined: Vec<bool> = steps.iter().map(|step| count == 1 || (0.0 < *step && *step < 2.0 * width)).collect();
        let half_after = |ray: usize| if joined[ray] && count > 1 { steps[ray] / 2.0 } else { width / 2.0 };
        let rays = (0..count).map(|ray| {
            let middle = middles[ray];
            RayAngles { from: middle - half_after((ray + count - 1) % count), middle, to: middle + half_after(ray) }
        });
        Some(Turn { rays: rays.collect(), joined })
    }

    pub fn ray(&self, ray: usize) -> RayAngles {
        self.rays[ray]
    }

    /// The angle of a ray as a rule, in degrees.
    pub fn width(&self) -> f64 {
        let mut widths: Vec<f64> = self.rays.iter().map(|ray| ray.to - ray.from).collect();
        widths.sort_by(f64::total_cmp);
        widths[widths.len() / 2]
    }

    /// Whether this ray ends where the next one begins.
    pub fn joins_next(&self, ray: usize) -> bool {
        self.joined[ray]
    }

    /// Whether the rays leave nothing out all around.
    pub fn is_whole(&self) -> bool {
        self.joined.iter().all(|joined| *joined)
    }
}

#[cfg(test)]
mod tests {
    use super::*;

    fn middles(turn: &Turn) -> Vec<String> {
        turn.rays.iter().map(|ray| shown(ray.middle).to_string()).collect()
    }

    /// 360.00 is never shown: what rounds to it is 0.00.
    #[test]
    fn azimuths_stay_under_360() {
        let turn = Turn::even(Hundredths(35982), 1024);
        assert_eq!(shown(turn.ray(0).middle).to_string(), "0.00");
        for rays in 1..=1024 {
            for start in [0, 1, 4500, 35982, 35999, 36000] {
                let turn = Turn::even(Hundredths(start), rays);
                assert!((0..rays).all(|ray| (0..36000).contains(&shown(turn.ray(ray).middle).0)));
            }
        }
        assert_eq!(
            (shown(359.995), shown(359.99), shown(-0.004), shown(720.0)),
            (Hundredths(0), Hundredths(35999), Hundredths(0), Hundredths(0))
        );
    }

    #[test]
    fn even_turns() {
        assert_eq!(middles(&Turn::even(Hundredths(4500), 2)), ["135.00", "315.00"]);
        let turn = Turn::even(Hundredths(4500), 512);
        assert_eq!(turn.ray(511).to, 405.0);
        assert!(turn.is_whole() && (turn.width() - 360.0 / 512.0).abs() < 1e-9);
    }

    #[test]
    fn turns_of_middles() {
        // a whole turn, over the north
        let turn = Turn::of_middles(&[300.0, 60.0, 180.0]).unwrap();
        assert!(turn.is_whole());
        assert_eq!((turn.ray(0).from, turn.ray(0).to, turn.ray(2).to), (240.0, 360.0, 240.0));
        // a part of a turn leaves the rest out
        let turn = Turn::of_middles(&[350.0, 351.0, 352.2, 353.0]).unwrap();
        assert_eq!([0, 1, 2, 3].map(|ray| turn.joins_next(ray)), [true, true, true, false]);
        assert!((turn.ray(3).to - 353.5).abs() < 1e-9 && (turn.ray(1).to - 351.6).abs() < 1e-9);
        // one ray is all around; equal ones have no width
        let one = Turn::of_middles(&[10.0]).unwrap();
        assert_eq!((one.ray(0).from, one.ray(0).to, one.is_whole()), (-170.0, 190.0, true));
        assert_eq!(Turn::of_middles(&[10.0, 10.0, 10.0]), None);
    }
}
