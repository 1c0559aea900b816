//! Points, lines and planes in few dimensions, as the register fits them ([4.4]): the first
//! point is the offset, and what a further point adds joins the basis where it is
//! longer than the tolerance.

use crate::geometry::{dot, minus, norm};

/// A line, plane or space through points.
#[derive(Clone, Debug)]
pub struct Flat {
    offset: Vec<f64>,
    basis: Vec<Vec<f64>>,
}

impl Flat {
    /// The flat that these points span; there is at least one.
    pub fn through<'a>(points: impl IntoIterator<Item = &'a Vec<f64>>, tolerance: f64) -> Flat {
        let mut points = points.into_iter();
        let mut flat = Flat {
            offset: points.next().cloned().unwrap_or_default(),
            basis: Vec::new(),
        };
        for point in points {
            flat.add(point, tolerance);
        }
        flat
    }

    /// The flat at a point, in the directions of these vectors.
    pub fn along(offset: &[f64], directions: &[Vec<f64>], tolerance: f64) -> Flat {
        let mut flat = Flat {
            offset: offset.to_vec(),
            basis: Vec::new(),
        };
        for direction in directions {
            let point: Vec<f64> = offset.iter().zip(direction).map(|(x, y)| x + y).collect();
            flat.add(&point, tolerance);
        }
        flat
    }

    fn add(&mut self, point: &[f64], tolerance: f64) {
        let residual = self.residual(point);
        let length = norm(&residual);
        if length > tolerance {
            self.basis
                .push(residual.iter().map(|x| x / length).collect());
        }
    }

    /// 1 for a line, 2 for a plane.
    pub fn dimension(&self) -> usize {
        self.basis.len()
    }

    fn residual(&self, point: &[f64]) -> Vec<f64> {
        let away = minus(point, &self.offset);
        let mut left = away.clone();
        for vector in &self.basis {
            let along = dot(&away, vector);
            left.iter_mut()
                .zip(vector)
                .for_each(|(x, b)| *x -= b * along);
        }
        left
    }

    /// How far the point is from the flat.
    pub fn distance(&self, point: &[f64]) -> f64 {
        norm(&self.residual(point))
    }
}
