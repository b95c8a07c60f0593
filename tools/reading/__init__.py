"""What the tools know of sources, journals and transcripts: tokens, the grammar, devices, lines.

The program alone decides what is refused. These modules say more of a place that the program has told, and read what
it has accepted; docs/use/ has the pages that they follow.
"""
