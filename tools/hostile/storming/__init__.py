"""Random scripts whose threads race."""
