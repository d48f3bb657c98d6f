"""The limits of a script, and of the numbers in it."""

TASKS = 4096
PHASES = 64
THREADS = 16
ORDER_NUMBERS = 4_000_000
PATH_BYTES = 2048
TEXT_BYTES = 4096
NAME_BYTES = 255
WEIGHT = 4_000_000
SCRIPT_BYTES = 67_108_864

# Each of these is below this number.
ADDRESSES = 2**48
NUMBERS = 2**64
ORDER_VALUES = 2**32
# The greatest task.
LAST_TASK = 2**32 - 1
