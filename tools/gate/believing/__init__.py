"""The definitions that contracts stand on, in layers: what docs/BELIEVE.md lists."""
