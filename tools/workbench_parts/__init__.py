"""The parts of tools/workbench.py; docs/WORKBENCH.md is its page."""
