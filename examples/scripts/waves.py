"""Blocks of many sizes come in three waves, of which every ninth block stays until the end, so that arenas fill, empty and go back."""

kept = {}
for wave in range(3):
    for k in range(3000):
        kept[wave, k] = b"x" * (60 + k * 37 % 380)
    for k in range(3000):
        if k % 9:
            del kept[wave, k]
kept.clear()
