"""What `bikhnoun ways` is made of: a script with each number of ways for a group, its plays, and the rows of its table."""
