//! "Rope ends on the screen" (02 §8). Of f64, each operation is rounded once.

/// "pulled by up to eight forces".
const MOST_FORCES: usize = 8;

#[derive(Clone, Copy)]
pub struct Point {
    pub place: f64,
    pub speed: f64,
}

pub enum Force {
    Pull { size: f64 },
    Spring { stiffness: f64, rest: f64 },
    Drag { factor: f64 },
}

impl Force {
    /// A kind and two numbers as the C face has them; a pull and a drag leave the second unused.
    pub fn read(kind: u32, numbers: &[f64]) -> Option<Force> {
        match kind {
            0 => Some(Force::Pull { size: numbers[0] }),
            1 => Some(Force::Spring { stiffness: numbers[0], rest: numbers[1] }),
            2 => Some(Force::Drag { factor: numbers[0] }),
            _ => None,
        }
    }

    fn is_finite(&self) -> bool {
        match self {
            Force::Pull { size } => size.is_finite(),
            Force::Spring { stiffness, rest } => stiffness.is_finite() && rest.is_finite(),
            Force::Drag { factor } => factor.is_finite(),
        }
    }

    fn on(&self, point: &Point) -> f64 {
        match self {
            Force::Pull { size } => *size,
            Force::Spring { stiffness, rest } => stiffness * (rest - point.place),
            Force::Drag { factor } => -(factor * point.speed),
        }
    }
}

impl Point {
    fn is_finite(&self) -> bool {
        self.place.is_finite() && self.speed.is_finite()
    }

    /// The point after a step under these forces; none where it is refused.
    pub fn step(&self, forces: &[Force]) -> Option<Point> {
        if forces.len() > MOST_FORCES || !self.is_finite() || !forces.iter().all(Force::is_finite) {
            return None;
        }
        let mut sum = 0.0;
        for force in forces {
            sum += force.on(self);
        }
        let speed = self.speed + sum * 0.02;
        let place = self.place + speed * 0.02;
        Some(Point { place, speed }).filter(Point::is_finite)
    }
}
