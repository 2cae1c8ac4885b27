---- MODULE Elevator ----
EXTENDS Integers, TLC
VARIABLES floor, doors
Init == floor = 0 /\ doors = "closed"
Move(d) ==
    /\ Assert(floor + d >= 0, <<"below the ground floor", floor + d>>)
    /\ floor' = floor + d
    /\ UNCHANGED doors
Next == \E d \in {1, -1} : Move(d)
====
