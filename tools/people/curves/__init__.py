"""Curves of misses by ways, as gnuplot draws them, and those of a plan."""
