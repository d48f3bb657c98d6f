"""What `tools/bikhnoun timeline` is made of: the moments of a cache, by the report in JSON, and how they are shown."""
