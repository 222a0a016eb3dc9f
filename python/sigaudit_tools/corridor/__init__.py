"""A corridor: a folder with a folder for each signal.

A signal's folder has config.toml; edits.txt, the lines load, replace, withdraw, blank and unblank in order of arrival;
the hour files that they name; holes.txt, where holes were looked for; and made/, what is made of the others.
"""

from sigaudit_tools.corridor.arrive import arrive
from sigaudit_tools.corridor.join import join
from sigaudit_tools.corridor.signals import audit_signal, signals_of

__all__ = ["arrive", "audit_signal", "join", "signals_of"]
