"""Plans as other programs have them: objects of NTCIP 1202 by their OIDs, and UTDF.

docs/use/EXCHANGE.md has the commands, and what of all this is from memory. What the
other side has no place for is a `Remark`; nothing is dropped without one.
"""
