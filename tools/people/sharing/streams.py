"""The stream of several programs that the planner reads: a line `turn K` where the turn of program K begins, and its uses as lackey writes
them. In it a line of memory is another one for each program, so no address is shifted."""
from functools import lru_cache

from tracing import LINE_BYTES
from tracing.merging import turns


@lru_cache(maxsize=1 << 16)
def use_line(line, is_code):
    """The use of a line of memory. Programs use few lines often."""
    return b"%b %x,%d\n" % (b"I " if is_code else b" L", line * LINE_BYTES, LINE_BYTES)


def stream_lines(lanes, takes_rest):
    """The lines of the stream. The task of a lane is the number of its program, from 0."""
    begins = [b"turn %d\n" % lane.task for lane in lanes]
    turn = None
    for program, line, is_code in turns(lanes, takes_rest):
        if program != turn:
            turn = program
            yield begins[program]
        yield use_line(line, is_code)
