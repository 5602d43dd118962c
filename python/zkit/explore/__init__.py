"""Plays a story by itself, and tells what goes wrong: `python3 -m zkit.explore STORY`.

docs/manual/exploring.md of the repository is its manual.
"""
