"""Mistakes made on purpose, to see that a test tells each: in the plain Rust
scheduler of docs/src, and in the second simulator's questions and images."""
