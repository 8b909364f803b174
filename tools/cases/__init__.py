"""The cases of the differential runs: lines for the program `answers`, and beside them what is put to the original Rust."""
