//! A picture of pixels with a depth each. Every pixel is the mean of several samples, so that slanting lines look smooth.

use crate::shading::{mixed, Colour};
use crate::view::Vector;

/// Samples for each pixel on each axis.
const SAMPLES: usize = 3;

/// The samples of a picture.
pub struct Raster {
    width: usize,
    height: usize,
    colours: Vec<Colour>,
    nearness: Vec<f64>,
    veiled: Vec<bool>,
}

impl Raster {
    /// A picture of so many pixels, all of one colour and infinitely far away.
    pub fn new(width: usize, height: usize, background: Colour) -> Raster {
        let (width, height) = (SAMPLES * width, SAMPLES * height);
        let count = width * height;
        Raster {
            width,
            height,
            colours: vec![background; count],
            nearness: vec![f64::NEG_INFINITY; count],
            veiled: vec![false; count],
        }
    }

    /// Puts a triangle where nothing is nearer. `paint` gives the colour from the weights of the three corners.
    pub fn triangle(&mut self, corners: [Vector; 3], paint: impl Fn([f64; 3]) -> Colour) {
        self.covered(corners, |raster, sample, weights, nearness| {
            if nearness > raster.nearness[sample] {
                raster.nearness[sample] = nearness;
                raster.colours[sample] = paint(weights);
            }
        });
    }

    /// Tints what is behind a triangle. A sample is tinted once, however many veils hang before it.
    pub fn veil(&mut self, corners: [Vector; 3], colour: Colour, part: f64) {
        self.covered(corners, |raster, sample, _, nearness| {
            if nearness > raster.nearness[sample] && !raster.veiled[sample] {
                raster.veiled[sample] = true;
                raster.colours[sample] = mixed(raster.colours[sample], colour, part);
            }
        });
    }

    /// Puts so much of a colour along a line, so many pixels wide, where nothing is nearer by more than its width.
    pub fn line(&mut self, ends: [Vector; 2], width: f64, colour: Colour, part: f64) {
        let [from, to] = ends;
        let (right, down) = (to[0] - from[0], to[1] - from[1]);
        let length = right.hypot(down);
        if length == 0.0 {
            return;
        }
        let aside = |end: Vector, side: f64| {
            [end[0] - side * down / length, end[1] + side * right / length, end[2] + width]
        };
        let [a, b, c, d] =
            [(from, 0.5), (from, -0.5), (to, -0.5), (to, 0.5)].map(|(end, side)| aside(end, side * width));
        for half in [[a, b, c], [a, c, d]] {
            self.covered(half, |raster, sample, _, nearness| {
                if nearness > raster.nearness[sample] {
                    raster.colours[sample] = mixed(raster.colours[sample], colour, part);
                }
            });
        }
    }

    /// Three bytes a pixel, rows from the top.
    pub fn pixels(&self) -> Vec<u8> {
        let (width, height) = (self.width / SAMPLES, self.height / SAMPLES);
        (0..width * height).flat_map(|pixel| self.mean(pixel % width, pixel / width)).collect()
    }

    fn mean(&self, column: usize, row: usize) -> [u8; 3] {
        let count = SAMPLES * SAMPLES;
        let sample = |number: usize| {
            let (x, y) = (SAMPLES * column + number % SAMPLES, SAMPLES * row + number / SAMPLES);
            self.colours[y * self.width + x]
        };
        let sum = (0..count)
            .map(sample)
            .fold([0.0; 3], |sum, colour| [0, 1, 2].map(|channel| sum[channel] + colour[channel]));
        sum.map(|channel: f64| (255.0 * channel / count as f64).round() as u8)
    }

    /// A place in the picture, in samples.
    fn scaled(&self, seen: Vector) -> Vector {
        seen.map(|coordinate| coordinate * SAMPLES as f64)
    }

    /// Goes over the samples whose middles a triangle covers: the sample, the weights of the corners and the nearness there.
    fn covered(&mut self, corners: [Vector; 3], mut visit: impl FnMut(&mut Raster, usize, [f64; 3], f64)) {
        let [a, b, c] = corners.map(|corner| self.scaled(corner));
        let twice = turned(a, b, [c[0], c[1]]);
        if twice == 0.0 {
            return;
        }
        let [columns, rows] = [(0, self.width), (1, self.height)]
            .map(|(axis, limit)| span([a, b, c].map(|corner| corner[axis]), limit));
        for (row, column) in rows.flat_map(|row| columns.clone().map(move |column| (row, column))) {
            let middle = [column as f64 + 0.5, row as f64 + 0.5];
            let weights =
                [turned(b, c, middle), turned(c, a, middle), turned(a, b, middle)].map(|part| part / twice);
            if weights.iter().all(|&weight| weight >= 0.0) {
                let nearness = weights[0] * a[2] + weights[1] * b[2] + weights[2] * c[2];
                visit(self, row * self.width + column, weights, nearness);
            }
        }
    }
}

/// Twice the area of the triangle from a to b to a place, with a sign.
fn turned(a: Vector, b: Vector, place: [f64; 2]) -> f64 {
    (b[0] - a[0]) * (place[1] - a[1]) - (b[1] - a[1]) * (place[0] - a[0])
}

/// The samples between the least and the greatest of these coordinates, within the picture.
fn span(coordinates: [f64; 3], limit: usize) -> std::ops::Range<usize> {
    let least = coordinates.into_iter().fold(f64::INFINITY, f64::min).floor().max(0.0);
    let greatest = coordinates.into_iter().fold(f64::NEG_INFINITY, f64::max).ceil().clamp(0.0, limit as f64);
    least as usize..greatest as usize
}

#[cfg(test)]
mod tests {
    use super::*;

    const WHITE: Colour = [1.0; 3];
    const BLACK: Colour = [0.0; 3];
    const RED: Colour = [1.0, 0.0, 0.0];

    fn pixel(raster: &Raster, column: usize, row: usize) -> [u8; 3] {
        let at = 3 * (row * raster.width / SAMPLES + column);
        raster.pixels()[at..at + 3].try_into().expect("three bytes")
    }

    /// The half of a picture of 8 by 8 pixels below the diagonal from the upper left.
    fn half(nearness: f64) -> [Vector; 3] {
        [[0.0, 0.0, nearness], [0.0, 8.0, nearness], [8.0, 8.0, nearness]]
    }

    #[test]
    fn the_nearer_triangle_is_seen() {
        for (first, second) in [(1.0, 2.0), (2.0, 1.0)] {
            let mut raster = Raster::new(8, 8, WHITE);
            raster.triangle(half(first), |_| if first > second { BLACK } else { RED });
            raster.triangle(half(second), |_| if first > second { RED } else { BLACK });
            assert_eq!(pixel(&raster, 1, 6), [0; 3]);
            assert_eq!(pixel(&raster, 6, 1), [255; 3]);
            let on_diagonal = pixel(&raster, 4, 4)[0];
            assert!((50..200).contains(&on_diagonal), "{on_diagonal}");
        }
    }

    #[test]
    fn weights_are_those_of_the_corners() {
        let mut raster = Raster::new(8, 8, WHITE);
        raster.triangle(half(0.0), |weights| weights);
        let [first, second, third] = pixel(&raster, 0, 7);
        assert!(second > 200 && first < 40 && third < 40, "{first} {second} {third}");
    }

    #[test]
    fn a_veil_tints_once_and_only_what_is_behind() {
        let mut raster = Raster::new(8, 8, WHITE);
        raster.veil(half(1.0), BLACK, 0.5);
        raster.veil(half(2.0), BLACK, 0.5);
        assert_eq!(pixel(&raster, 1, 6), [128; 3]);
        let mut covered = Raster::new(8, 8, WHITE);
        covered.triangle(half(3.0), |_| RED);
        covered.veil(half(2.0), BLACK, 0.5);
        assert_eq!(pixel(&covered, 1, 6), [255, 0, 0]);
    }

    #[test]
    fn a_line_goes_behind_what_is_nearer() {
        let mut raster = Raster::new(8, 8, WHITE);
        raster.triangle(half(50.0), |_| RED);
        raster.line([[0.0, 4.5, 0.0], [8.0, 4.5, 0.0]], 1.0, BLACK, 1.0);
        assert_eq!(pixel(&raster, 1, 4), [255, 0, 0]);
        assert_eq!(pixel(&raster, 6, 4), [0; 3]);
    }
}
