//! Random soundings and clearances, from the plain to the extreme.

use crate::random::Random;
use crate::survey::BOX_SIZE;

/// The greatest lawful sounding.
const MOST: f32 = 1_048_576.0;

/// How the soundings of a survey come about.
#[derive(Clone, Copy, Debug)]
enum Kind {
    /// Wet +1, dry −1; wet once in so many times.
    Signs { wet_one_in: usize },
    /// Wet and dry by turns along the edges, so that most faces have two opposite wet corners.
    Saddles,
    /// Anything from −100 to 100.
    Spread,
    /// The distance inside a ball around this place.
    Ball { centre: [u16; 3], radius: u16 },
    /// Most of them equal to the clearance, zeros of both signs where it is zero, or next to it.
    AtClearance,
    /// Zeros of both signs, and the smallest numbers on both sides of them.
    Zeros,
    /// The least and the greatest lawful numbers, and small ones between.
    Huge,
    /// Numbers below the normal range.
    Subnormal,
    /// Any lawful number, by its bits.
    Bits,
}

/// The soundings and the clearance of one survey.
pub(crate) struct Soundings {
    kind: Kind,
    /// The clearance that the soundings stand around.
    pub(crate) clearance: f32,
}

impl Soundings {
    /// A random kind with a clearance that goes with it.
    pub(crate) fn random(random: &mut Random) -> Soundings {
        let kind = random_kind(random);
        let clearance = match kind {
            Kind::Spread | Kind::AtClearance => random.pick(&[0.0, -0.0, 0.1, -7.25, 33.333, 1.0e-3]),
            Kind::Zeros => random.pick(&[0.0, -0.0]),
            Kind::Huge => random.pick(&[0.0, 1.0, MOST, -MOST, 0.3]),
            Kind::Subnormal => subnormal(random),
            Kind::Bits => any_bits(random),
            _ => 0.0,
        };
        Soundings { kind, clearance }
    }

    /// Whether a lawful sounding can be wet.
    pub(crate) fn leaves_room(&self) -> bool {
        self.clearance < MOST
    }

    /// The sounding at a place.
    pub(crate) fn at(&self, random: &mut Random, place: [u16; 3]) -> f32 {
        let sign = |positive: bool| if positive { 1.0 } else { -1.0 };
        match self.kind {
            Kind::Signs { wet_one_in } => sign(random.one_in(wet_one_in)),
            Kind::Saddles => {
                let odd_bits = (place[0] ^ place[1] ^ place[2]).count_ones() % 2 == 1;
                sign(odd_bits != random.one_in(12)) * random.pick(&[1.0, 1.0, 0.7, 3.0])
            }
            Kind::Spread => random.below(2_000_001) as f32 / 10_000.0 - 100.0,
            Kind::Ball { centre, radius } => f32::from(radius) - distance(centre, place),
            Kind::AtClearance => match random.below(6) {
                0 => self.clearance.next_up(),
                1 => self.clearance.next_down(),
                2 => random.pick(&[-50.0, 50.0]),
                _ => self.awash(random),
            },
            Kind::Zeros => random.pick(&[0.0, -0.0, 0.0f32.next_up(), 0.0f32.next_down(), 1.0, -1.0]),
            Kind::Huge => random.pick(&[MOST, -MOST, MOST.next_down(), 1.0, -1.0, 1.0e-30, -1.0e-30]),
            Kind::Subnormal => subnormal(random),
            Kind::Bits => any_bits(random),
        }
    }

    /// A lawful sounding that is dry: every second one is equal to the clearance, the others are below it where
    /// lawful soundings are.
    pub(crate) fn dry(&self, random: &mut Random) -> f32 {
        if random.one_in(2) {
            return self.awash(random);
        }
        let lower = [self.clearance.next_down(), self.clearance - 1.0, self.clearance - 0.3, -MOST];
        random.pick(&lower).max(-MOST)
    }

    /// A lawful sounding that is wet, where there is one: the clearance is not the greatest.
    pub(crate) fn wet(&self, random: &mut Random) -> f32 {
        let higher = [self.clearance.next_up(), self.clearance + 1.0, self.clearance + 0.3, MOST];
        random.pick(&higher).min(MOST)
    }

    /// A sounding equal to the clearance: a zero of either sign where it is zero.
    fn awash(&self, random: &mut Random) -> f32 {
        if self.clearance == 0.0 {
            random.pick(&[0.0, -0.0])
        } else {
            self.clearance
        }
    }
}

fn random_kind(random: &mut Random) -> Kind {
    match random.below(10) {
        0 => Kind::Signs { wet_one_in: 2 },
        1 => Kind::Signs { wet_one_in: 2 + random.below(30) },
        2 => Kind::Saddles,
        3 => Kind::Spread,
        4 => {
            let coordinate = |random: &mut Random| random.below(usize::from(BOX_SIZE) + 1) as u16;
            let centre = [coordinate(random), coordinate(random), coordinate(random)];
            Kind::Ball { centre, radius: coordinate(random) }
        }
        5 => Kind::AtClearance,
        6 => Kind::Zeros,
        7 => Kind::Huge,
        8 => Kind::Subnormal,
        _ => Kind::Bits,
    }
}

/// How far two places are from each other.
pub(crate) fn distance(one: [u16; 3], other: [u16; 3]) -> f32 {
    let squares = (0..3).map(|axis| u64::from(one[axis].abs_diff(other[axis])).pow(2));
    (squares.sum::<u64>() as f32).sqrt()
}

fn subnormal(random: &mut Random) -> f32 {
    let sign = (random.bits() as u32) << 31;
    f32::from_bits(sign | random.bits() as u32 >> (9 + random.below(23)))
}

fn any_bits(random: &mut Random) -> f32 {
    loop {
        let number = f32::from_bits(random.bits() as u32);
        if number.abs() <= MOST {
            return number;
        }
    }
}

/// A number that is not finite or out of range: the next beyond, infinities, and NaNs of several patterns.
pub(crate) fn unlawful(random: &mut Random) -> f32 {
    let bits = [0x4980_0001, 0x7f7f_ffff, 0x7f80_0000, 0x7f80_0001, 0x7fc0_0000, 0x7fff_ffff];
    let sign = (random.bits() as u32) << 31;
    f32::from_bits(random.pick(&bits) | sign)
}

/// A sounding or a clearance that is not in force: one that is not lawful, an extreme one, or one equal or next to the
/// clearance that is in force.
pub(crate) fn overruled(random: &mut Random, clearance: f32) -> f32 {
    match random.below(3) {
        0 => unlawful(random),
        _ => random.pick(&[MOST, -MOST, clearance, clearance.next_up()]),
    }
}
