"""What docs/PROMISES.md names, and what the crates have."""
