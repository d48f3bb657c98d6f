"""The simulated tree as a file system: `python3 -m resctrl_sim.mount` is `tools/bikhnoun mount`."""
