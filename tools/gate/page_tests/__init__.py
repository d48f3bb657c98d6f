"""What `tools/gate/try_page` is made of: a browser without a window, and what is tried in it."""
