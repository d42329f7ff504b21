"""A plain memory for scripts, and random scripts to ask the program and it.

Written from the rules alone: no line of it follows the code of the crates.
"""
