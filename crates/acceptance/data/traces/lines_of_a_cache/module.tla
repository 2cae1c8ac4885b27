---- MODULE Coherence ----
\* Caches of one line each over a bus: modified, shared or invalid.
EXTENDS Naturals, FiniteSets
CONSTANTS Core, Word
VARIABLES line, memory, bus

Idle == [op |-> "none"]
Request == [op : {"read", "write"}, core : Core]

Init ==
    /\ line = [c \in Core |-> [state |-> "I", word |-> 0]]
    /\ memory = 0
    /\ bus = Idle

Ask(c, op) ==
    /\ bus = Idle
    /\ line[c].state # "M"
    /\ op = "read" => line[c].state = "I"
    /\ bus' = [op |-> op, core |-> c]
    /\ UNCHANGED <<line, memory>>

WriteBack(c) ==
    /\ bus # Idle
    /\ c # bus.core
    /\ line[c].state = "M"
    /\ UNCHANGED memory
    /\ line' = [line EXCEPT ![c].state = IF bus.op = "read" THEN "S" ELSE "I"]
    /\ UNCHANGED bus

Answer ==
    /\ bus # Idle
    /\ \A c \in Core \ {bus.core} : line[c].state # "M"
    /\ line' = [c \in Core |->
                  CASE c = bus.core /\ bus.op = "read" -> [state |-> "S", word |-> memory]
                    [] c = bus.core /\ bus.op = "write" -> [state |-> "M", word |-> memory]
                    [] c # bus.core /\ bus.op = "read" -> line[c]
                    [] c # bus.core /\ bus.op = "write" -> [line[c] EXCEPT !.state = "I"]]
    /\ bus' = Idle
    /\ UNCHANGED memory

Store(c, w) ==
    /\ line[c].state = "M"
    /\ line' = [line EXCEPT ![c].word = w]
    /\ UNCHANGED <<memory, bus>>

Next ==
    \/ Answer
    \/ \E c \in Core :
         \/ WriteBack(c)
         \/ \E op \in {"read", "write"} : Ask(c, op)
         \/ \E w \in Word : Store(c, w)

Modified == {c \in Core : line[c].state = "M"}
Exclusive ==
    /\ Cardinality(Modified) <= 1
    /\ \A c \in Modified : \A d \in Core \ {c} : line[d].state = "I"
Current == \A c \in Core : line[c].state = "S" => line[c].word = memory
====
