---- MODULE Expressions ----
EXTENDS Integers, Sequences, FiniteSets, TLC
VARIABLE value
Next == value' = value
Never == FALSE
