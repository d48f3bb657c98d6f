"""What several programs miss in one cache, if they share it and if its ways are divided among them."""
