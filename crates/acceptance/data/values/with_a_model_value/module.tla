---- MODULE Expressions ----
EXTENDS Integers, Sequences, FiniteSets, TLC
CONSTANT m VARIABLE value
Next == value' = value
Never == FALSE
