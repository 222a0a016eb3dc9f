"""`python3 -m sigaudit_tools`."""

from sigaudit_tools.cli import main

main()
