//! A stand-in for the crate `embedded_graphics_core`, which does not lie beside the Rust files. It has only the names that
//! they use. Sums, least and greatest of points are taken for x and for y by themselves, and a rectangle consists of its top
//! left corner and its size. `OriginDimensions` and `BinaryColor` are for bindings/rust's example
//! alone: a display of the real crate has to say its size.

pub mod geometry {
    use core::ops::{Add, AddAssign};

    #[derive(Debug, Clone, Copy, PartialEq, Eq)]
    pub struct Point {
        pub x: i32,
        pub y: i32,
    }

    #[derive(Debug, Clone, Copy, PartialEq, Eq)]
    pub struct Size {
        pub width: u32,
        pub height: u32,
    }

    impl Point {
        pub const fn new(x: i32, y: i32) -> Self {
            Self { x, y }
        }

        pub fn component_min(self, other: Self) -> Self {
            Self::new(self.x.min(other.x), self.y.min(other.y))
        }

        pub fn component_max(self, other: Self) -> Self {
            Self::new(self.x.max(other.x), self.y.max(other.y))
        }
    }

    impl Size {
        pub const fn new(width: u32, height: u32) -> Self {
            Self { width, height }
        }
    }

    pub trait OriginDimensions {
        fn size(&self) -> Size;
    }

    impl Add for Point {
        type Output = Point;
        fn add(self, other: Point) -> Point {
            Point::new(self.x + other.x, self.y + other.y)
        }
    }

    impl AddAssign for Point {
        fn add_assign(&mut self, other: Point) {
            *self = *self + other;
        }
    }

    impl Add<Size> for Point {
        type Output = Point;
        fn add(self, size: Size) -> Point {
            let width = i32::try_from(size.width).expect("a width fits an i32");
            let height = i32::try_from(size.height).expect("a height fits an i32");
            Point::new(self.x + width, self.y + height)
        }
    }
}

pub mod primitives {
    use crate::geometry::{Point, Size};

    #[derive(Debug, Clone, Copy, PartialEq, Eq)]
    pub struct Rectangle {
        pub top_left: Point,
        pub size: Size,
    }

    impl Rectangle {
        pub const fn new(top_left: Point, size: Size) -> Self {
            Self { top_left, size }
        }
    }
}

pub mod pixelcolor {
    pub trait PixelColor: Copy + PartialEq {}

    #[derive(Debug, Clone, Copy, PartialEq, Eq)]
    pub enum BinaryColor {
        Off,
        On,
    }

    impl PixelColor for BinaryColor {}
}

/// A cell and the colour it takes.
#[derive(Debug, Clone, Copy, PartialEq, Eq)]
pub struct Pixel<C: pixelcolor::PixelColor>(pub geometry::Point, pub C);

pub mod draw_target {
    use crate::{pixelcolor::PixelColor, primitives::Rectangle, Pixel};

    pub trait DrawTarget {
        type Color: PixelColor;
        type Error;

        fn draw_iter<I>(&mut self, pixels: I) -> Result<(), Self::Error>
        where
            I: IntoIterator<Item = Pixel<Self::Color>>;

        fn fill_contiguous<I>(&mut self, area: &Rectangle, colors: I) -> Result<(), Self::Error>
        where
            I: IntoIterator<Item = Self::Color>;
    }
}

pub mod prelude {
    pub use crate::{
        draw_target::DrawTarget,
        geometry::{Point, Size},
        pixelcolor::PixelColor,
        Pixel,
    };
}
