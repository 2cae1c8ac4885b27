---- MODULE Escapes ----
\* Strings with a quote and a backslash.
VARIABLES word, seen
Init == word = "a" /\ seen = {}
Next == word' = "say \"\\\"" /\ seen' = seen \cup {word}
Short == word = "a"
====
