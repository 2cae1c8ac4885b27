---- MODULE Still ----
Init == TRUE
Next == FALSE
Inv == TRUE
====
