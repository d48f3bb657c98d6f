"""How long proofs take, side by side."""
