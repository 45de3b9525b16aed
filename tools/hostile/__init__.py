"""Hostile use of the built program: what tools/hostile.py tries."""
