"""Modules of the comparisons of orders and of reports."""
