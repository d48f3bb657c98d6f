"""Scripts that were written to take long, and what bounds each of them: `bench/hostile.py` plays them."""
