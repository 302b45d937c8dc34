"""Makes all packages of a release, and the sums over all that is released: see scripts/package.

The same sources and tools make the same octets, in any folder and at any time: dates, orders, owners and modes are fixed.
"""
