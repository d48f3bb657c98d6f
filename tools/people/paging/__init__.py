"""What `tools/bikhnoun page` is made of: plays of a script, a server for this machine alone, and the files of the page in `page/`."""
