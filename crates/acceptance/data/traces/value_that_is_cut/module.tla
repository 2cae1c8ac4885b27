---- MODULE Long ----
\* A set of rows, of which a step makes one that is longer than a line.
EXTENDS Naturals
VARIABLES row
Init == row = {}
Next == row' = {row \cup 1..60}
Inv == row = {}
====
