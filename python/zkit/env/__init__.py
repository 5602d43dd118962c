"""Environments for agents that learn: stories with the interface of Gymnasium, and the calls of Jericho.

>>> from zkit.env import Environment
>>> with Environment("examples/lighthouse.z5") as env:
...     observation, reward, terminated, truncated, info = env.step("north")
...     env.get_player_location().name
'Shore Path'

docs/manual/python.md of the repository is its manual. Neither Gymnasium nor Jericho is needed.
"""

from zkit.env.environment import Environment, State

__all__ = ["Environment", "State"]
