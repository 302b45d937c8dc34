"""Indexes the signatures and time-stamps of an archive, on one machine or on a cluster: the command `cms-canon-archive`.

`containers` finds messages in files, `judging` says what is known of them, `reading` makes rows of that, `walking` finds the files, `store` keeps
the rows, and `indexing` brings the store up to date. `queries` and `report` say what is in it.
"""
