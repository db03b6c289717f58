"""Tools around the planner: cases as text and tables, plans as pages.

They are tested, not proved, and change nothing that the planner reads or prints. Python 3.8 or later,
its standard library alone.
"""
