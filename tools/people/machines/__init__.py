"""Machines by their names."""
