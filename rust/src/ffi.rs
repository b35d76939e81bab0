//! The C functions as they are, declared as in `include/mlhe.h`, which describes them. [`crate::lent`] has a safe
//! function for each.
//!
//! # Safety
//!
//! Each pointer is followed by the number of its elements. That many elements have to be valid for reading, and for
//! writing where the pointer is mutable; no mutable memory may overlap any other memory of the call. Lengths and
//! numbers may be any: what does not fit is refused.

#[allow(clippy::too_many_arguments)]
mod declared {
    extern "C" {
        /// Reads the header of a P6 frame and measures the rest: see [`lent::read`](crate::lent::read).
        pub fn mlhe_read(bytes: *const u8, bytes_length: usize, numbers: *mut usize, numbers_length: usize) -> i64;

        /// Writes a P6 frame: see [`lent::write`](crate::lent::write).
        pub fn mlhe_write(
            raster: *const u8,
            raster_length: usize,
            w: usize,
            h: usize,
            output: *mut u8,
            output_length: usize,
        ) -> i64;

        /// Fills a plane with the intensities of a frame: see [`lent::intensity`](crate::lent::intensity).
        pub fn mlhe_intensity(
            frame: *const u8,
            frame_length: usize,
            w: usize,
            h: usize,
            plane: *mut u8,
            plane_length: usize,
        ) -> i64;

        /// Runs one pass over a plane: see [`lent::pass`](crate::lent::pass).
        pub fn mlhe_pass(
            plane: *mut u8,
            plane_length: usize,
            marks: *mut u8,
            marks_length: usize,
            queue: *mut u32,
            queue_length: usize,
            w: usize,
            h: usize,
            a: u8,
            b: u8,
            area: u32,
            rule: *const u16,
            rule_length: usize,
            counts: *mut usize,
            counts_length: usize,
        ) -> i64;

        /// Runs the passes of a list: see [`lent::run_list`](crate::lent::run_list).
        pub fn mlhe_run_list(
            list: *const u8,
            list_length: usize,
            plane: *mut u8,
            plane_length: usize,
            marks: *mut u8,
            marks_length: usize,
            queue: *mut u32,
            queue_length: usize,
            w: usize,
            h: usize,
            counts: *mut usize,
            counts_length: usize,
        ) -> i64;

        /// Converts a list to the other version: see [`lent::convert_list`](crate::lent::convert_list).
        pub fn mlhe_convert_list(list: *const u8, list_length: usize, output: *mut u8, output_length: usize) -> i64;

        /// Recolours a frame from a plane: see [`lent::recolour`](crate::lent::recolour).
        pub fn mlhe_recolour(
            frame: *const u8,
            frame_length: usize,
            w: usize,
            h: usize,
            plane: *const u8,
            plane_length: usize,
            output: *mut u8,
            output_length: usize,
        ) -> i64;

        /// Enhances a frame: see [`lent::enhance`](crate::lent::enhance).
        pub fn mlhe_enhance(
            frame: *const u8,
            frame_length: usize,
            w: usize,
            h: usize,
            last: u8,
            area: u32,
            rule: *const u16,
            rule_length: usize,
            plane: *mut u8,
            plane_length: usize,
            marks: *mut u8,
            marks_length: usize,
            queue: *mut u32,
            queue_length: usize,
            output: *mut u8,
            output_length: usize,
            counts: *mut usize,
            counts_length: usize,
        ) -> i64;
    }
}

pub use declared::*;
