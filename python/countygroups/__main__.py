"""Runs the program inside this package: `python -m countygroups --help`."""
import sys

from .command import main

sys.exit(main())
