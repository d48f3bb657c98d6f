"""Patterns that several rules search for."""

# A number that is read in another base, or has a sign.
PREFIXED = r"(^|[,\n])[ \t]*([+-]?0[0-9xX]|\+)"
# A list of tasks that has a 0.
ZERO = r"(^|,)[ \t]*[+-]?0+[ \t]*(,|$)"
BLANK_AT_AN_END = r"^[ \t]|[ \t]$"
# A kernel's words for a fault of a mask, or of the text that it stands in.
FAULTY_MASK = "^EINVAL (Overlaps|CBM overlaps|Pseudo-locked region|Mask|The mask|Need|Duplicate|Non-hex|Missing|Unknown)"
# A kernel's answer when no RMID is free, by version and by what waits in limbo.
NO_RMID = "^E(BUSY|NOSPC) Out of RMIDs"
