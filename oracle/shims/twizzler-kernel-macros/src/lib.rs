//! `kernel_test` as the built-in `test`: outside a test build the kernel's test functions are left out.

pub use core::prelude::v1::test as kernel_test;
