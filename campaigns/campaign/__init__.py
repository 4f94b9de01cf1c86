"""Campaigns: many runs of the proved program, one table of what they said, and figures of it.

Nothing here computes what a machine answers. A run is a call of the program; Python reads what it says, puts it side by side, and draws.

`settings` has the words of one run, `configuration` the campaign's file, `images` programs for a number of nodes, `plan` what is to be run and how
it is cut into batches, `batch` one of these, `statistics` and `rows` what a run said, `gather` the tables, `points`, `figures` and `page` what is
drawn and shown, `front` the whole, and `progress` how far it is.
"""
