"""Finds the messages that a file holds, each with the content that it covers. Nothing is written anywhere, and nothing is run.

`found` says what is found, `sources` reads within a budget, `finder` looks at how a file begins, and each other module knows one kind of
container.
"""
