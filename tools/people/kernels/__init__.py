"""What `tools/bikhnoun kernel` is made of: a Linux that believes in a simulated cache, and a comparison of its answers with the simulator's."""
