# What pqos shows, allocates, associates and resets. What it says of the real processor is left out.
shown() {
    echo "$ pqos -I $*"
    pqos -I "$@" 2>&1 | grep -E 'COS[0-9]+ => |Core [0-9]+,|altered|successful|set$|ERROR|error|failed'
}

shown -s
shown -e 'llc:1=0x00f'
shown -e 'llc:2=0x0f0'
shown -a 'llc:1=2,3'
shown -s
shown -R
shown -s
