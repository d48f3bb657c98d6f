"""What `tools/bikhnoun explain` is made of: a reader of scripts that says why a line is refused, and remarks on valid scripts."""
