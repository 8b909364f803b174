"""The lines that the gate puts to the program `answers`, with their answers: from the recorded Rust, from 01, from the model."""
