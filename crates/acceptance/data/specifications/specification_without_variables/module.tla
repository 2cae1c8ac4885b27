---- MODULE M ----
Spec == TRUE /\ [][TRUE]_<<>>
====
