//! Numbers that repeat every two rows and every four columns, handed out for all pixels.
use core::iter::FusedIterator;
use core::ops::Range;

use crate::camera::Mlx90640;

const ROWS: usize = 2;
const COLUMNS: usize = 4;

/// The numbers of the first two rows and four columns, row by row.
#[derive(Clone, Debug, PartialEq)]
pub(crate) struct Tile(pub(crate) [f32; ROWS * COLUMNS]);

impl Tile {
    fn of_pixel(&self, pixel: usize) -> &f32 {
        let (row, column) = (pixel / Mlx90640::WIDTH, pixel % Mlx90640::WIDTH);
        &self.0[row % ROWS * COLUMNS + column % COLUMNS]
    }
}

/// The iterator of [`Calibration::k_v_pixels`](crate::Calibration::k_v_pixels).
#[derive(Clone, Debug)]
pub struct KvPixels<'a> {
    tile: &'a Tile,
    pixels: Range<usize>,
}

impl<'a> KvPixels<'a> {
    pub(crate) fn new(tile: &'a Tile) -> Self {
        Self { tile, pixels: 0..Mlx90640::NUM_PIXELS }
    }

    fn of_pixel(&self, pixel: usize) -> &'a f32 {
        self.tile.of_pixel(pixel)
    }
}

/// The iterator of [`Calibration::access_pattern_compensation_pixels`](crate::Calibration::access_pattern_compensation_pixels).
#[derive(Clone, Debug)]
pub struct Corrections<'a> {
    tile: Option<&'a Tile>,
    pixels: Range<usize>,
}

impl<'a> Corrections<'a> {
    pub(crate) fn new(tile: Option<&'a Tile>) -> Self {
        Self { tile, pixels: 0..Mlx90640::NUM_PIXELS }
    }

    fn of_pixel(&self, pixel: usize) -> Option<&'a f32> {
        self.tile.map(|tile| tile.of_pixel(pixel))
    }
}

macro_rules! over_pixels {
    ($name:ident, $item:ty) => {
        impl<'a> Iterator for $name<'a> {
            type Item = $item;

            fn next(&mut self) -> Option<$item> {
                self.pixels.next().map(|pixel| self.of_pixel(pixel))
            }

            fn nth(&mut self, n: usize) -> Option<$item> {
                self.pixels.nth(n).map(|pixel| self.of_pixel(pixel))
            }

            fn size_hint(&self) -> (usize, Option<usize>) {
                self.pixels.size_hint()
            }
        }

        impl DoubleEndedIterator for $name<'_> {
            fn next_back(&mut self) -> Option<Self::Item> {
                self.pixels.next_back().map(|pixel| self.of_pixel(pixel))
            }
        }

        impl ExactSizeIterator for $name<'_> {}
        impl FusedIterator for $name<'_> {}
    };
}

over_pixels!(KvPixels, &'a f32);
over_pixels!(Corrections, Option<&'a f32>);
