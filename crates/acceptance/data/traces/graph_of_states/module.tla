---- MODULE Traffic ----
\* Two lights. East goes on green at any time, which is the mistake.
VARIABLES north, east
Init == north = "red" /\ east = "red"
NorthGoes == east = "red" /\ north' = "green" /\ UNCHANGED east
EastGoes == east' = "green" /\ UNCHANGED north
Next == NorthGoes \/ EastGoes
OneGreen == ~ (north = "green" /\ east = "green")
====
