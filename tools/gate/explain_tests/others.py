"""Usual mistakes in scripts of `resctrl_cdp` and `resctrl_l2`, in traces, journals and machines, and a piece of what `explain` says."""

PAIR = "machine sets=4 ways=4 cpus=2\ntasks 1-2\n"
DATA = PAIR + "write /schemata L3DATA:0=3\n"
LEVELS = PAIR.replace("cpus", "l2_sets=2 cpus")

# The words after `explain`, what is read from standard input, the exit status, and pieces of what is printed.
CASES = (
    ((), DATA + "trace 1 0\n L 1000,8\n M 0x1040,4\nend\n", 1, ("-:6:4: bad trace line", "without 0x")),
    ((), DATA + "trace 1 0\nl 1000,8\nend\n", 1, ("-:5:1: bad trace line", "the letter is a capital")),
    ((), DATA + "trace 1 0\n L 1000,0\nend\n", 1, ("-:5:9: bad trace line", "from 1 to 4096")),
    ((), DATA + "trace 1 0\n L 1000,8\n", 1, ("line 6: bad trace line", "a line `end` closes it")),
    ((), DATA + "trace 3 0\nend\n", 1, ("-:4:7: unknown task", "declared are: 1-2")),
    ((), DATA + "trace 1\nend\n", 1, ("-:4:8: bad argument", "CPU is missing")),
    ((), DATA + "access 1 0 0\n", 1, ("-:4:1: unknown word", "resctrl_cdp has no `access`")),
    ((), DATA + "mkdir /a/mon_groups/m\n", 1, ("-:4:7: bad path", "no monitor groups")),
    ((), DATA + "read /size\n", 1, ("-:4:6: bad path", "files are schemata, mode and tasks")),
    ((), DATA + "flush 0\n", 1, ("-:4:7: bad argument", "a word too many")),
    ((), DATA + "tasks 3\n", 1, ("-:4:1: out of place", "directly after the machine line")),
    ((), DATA + "write /schemata L3:0=3\n", 0, ("-:4:1: remark", "the resources are L3DATA and L3CODE")),
    ((), DATA + "write /mode Exclusive\n", 0, ("-:4:1: remark", "the mode is `exclusive`, in small letters")),
    ((), DATA + "write /mode exclusive\ntrace 1 0\n L 40,4\nend\n", 0, ("-:4:1: remark", "no use is in a window")),
    (("--for", "cdp"), "machine classes=1\n", 1, ("-:1:9: bad machine line", "each group takes two")),
    (("--for", "cdp"), "machine slices=2\n", 1, ("-:1:9: bad machine line", "each cache is one slice")),
    (("--for", "cdp"), "machine l2_sets=2\n", 1, ("-:1:9: bad machine line", "those of resctrl_l2")),
    (("--for", "l2"), PAIR + "phase\n", 1, ("-:3:1: unknown word", "it has one thread")),
    ((), LEVELS.replace("l2_sets=2", "l2_sets=3"), 1, ("-:1:23: bad machine line", "l2_sets 3 is not a power of two")),
    ((), LEVELS.replace("l2_sets=2", "domains=2 l2_domains=3"), 1, ("bad machine line", "l2_domains 3 is not a multiple of the 2 domains")),
    ((), LEVELS + "write /schemata L2:0=1f\n", 0, ("-:3:1: remark", "out of range")),
    ((), LEVELS + "access 1 2 0\n", 1, ("-:3:10: bad argument", "from 0 to 1")),
    ((), "==1== Lackey\n L 1000,8\nI  2000,4\nhello world\n", 1, ("-:4:1: bad trace line", "--log-file=FILE")),
    ((), "==1== Lackey\n L 1000,8\nI  2000,4\n M 103f,2\n", 0, ("1 instructions, 1 loads, 0 stores, 1 modifies: 6 uses",)),
    (("--for", "trace"), "ffff8000 |OP LOAD|LVL L1 hit\n", 1, ("-:1:1: bad trace line", "a line of `perf script`")),
    ((), "machine sets=1 ways=1\njournal 1\nslice 0 0 0\nend\n", 0, ("yes\n", "not proved: slice 0.0: 0 entries")),
    ((), "machine sets=1 ways=1\njournal 1\nslice 0 0 1\nend\n", 1, ("line 3: bad journal", "more than the ops of the script weigh")),
    ((), "machine sets=1 ways=1\r\njournal 1\r\nslice 0 0 0\r\nend\r\n", 1, ("line 2: unknown word", "end with CR LF")),
    (("--machine", "sets=3"), "", 1, ("--machine:1:9: bad machine line", "2 and 4")),
    (("--machine", "sets=4,ways=2"), "", 1, ("--machine:1:14: bad machine line", "separated by blanks")),
    (("--machine", "size=1M"), "", 1, ("sets=1024 ways=16",)),
    (("--machine", "sets=4 ways=2"), "", 0, ("8 lines in 1 domain, 512 bytes in all",)),
    (("--machine", "sets=4", "-"), "", 2, ("FILE: not allowed with argument --machine",)),
    (("--for", "nothing"), "", 2, ("--for: invalid choice: 'nothing'",)),
)
