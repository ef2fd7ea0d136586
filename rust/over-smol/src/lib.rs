//! A program over smol whose tasks are proved: `cargo run --example tasks`.
