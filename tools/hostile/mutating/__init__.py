"""Mutants of scripts."""
