"""Translates scripts of `resctrl_cdp` and `resctrl_l2` into scripts of `resctrl_sim`."""
