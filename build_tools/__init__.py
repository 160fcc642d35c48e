"""What proves and builds: the crates of crates.txt, and their proofs side by side."""
