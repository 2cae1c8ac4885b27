---- MODULE Door ----
VARIABLES door, key
Init == door = "shut" /\ key = "in"
Turn == key' = "out" /\ UNCHANGED door
Open == key = "in" => door' = "open" /\ UNCHANGED key
Next == Open \/ Turn
====
