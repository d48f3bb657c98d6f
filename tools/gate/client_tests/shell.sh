# A shell on the mount, after the examples of the kernel documentation. It is run in the root of the tree.
# Each command is shown with what it prints, and with the status of one that is refused.
run() {
    echo "$ $1"
    eval "$1" 2>&1 | sed 's/^.*: \([^:]*\)$/error: \1/'
}

# Two groups, each with half of the first cache and half of the second.
run 'mkdir p0 p1'
run 'echo "L3:0=3;1=c" > p0/schemata'
run 'echo "L3:0=3;1=3" > p1/schemata'
run 'cat p0/schemata p1/schemata'
run 'echo 1000 > p1/tasks; echo 1001 > p1/tasks'
run 'cat p1/tasks'
run 'ls'

# CPUs of their own for real-time tasks.
run 'echo "L3:0=3ff;1=3ff" > schemata'
run 'mkdir rt'
run 'echo "L3:0=c00;1=c00" > rt/schemata'
run 'echo 2-3 > rt/cpus_list'
run 'cat rt/cpus cpus'

# An exclusive group.
run 'rmdir p1; mkdir p2'
run 'echo "L3:0=3f0;1=3f0" > schemata'
run 'echo "L3:0=f;1=f" > p0/schemata'
run 'echo exclusive > p0/mode'
run 'cat info/last_cmd_status'
run 'rmdir p2'
run 'echo exclusive > p0/mode'
run 'cat p0/mode p0/size info/L3/bit_usage'
run 'echo "L3:0=ff;1=ff" > schemata'
run 'cat info/last_cmd_status'

# Monitoring of a task.
run 'mkdir mon_groups/m11'
run 'echo 1002 > mon_groups/m11/tasks'
run 'echo "sweep 1002 0 0 100 64" > .sim/access'
run 'cat mon_groups/m11/mon_data/mon_L3_00/llc_occupancy'
run 'rmdir mon_groups/m11'

# What is refused.
run 'echo "MB:0=10" > p0/schemata'
run 'cat info/last_cmd_status'
run 'echo "L3:0=5" > p0/schemata'
run 'cat info/last_cmd_status'
run 'echo 1 > p0/size'
run 'rm p0/tasks'
run 'mv p0 p3'
run 'mkdir p0/x'
run 'mkdir p0'
run 'rmdir info'
