"""Makes a label, reads it twenty times and drops it."""

import labels

label = labels.make_label()
for row in range(20):
    labels.read_label(label)
labels.drop_label(label)
