---- MODULE Cache ----
\* A cache of pages by their numbers, and the page that was read last.
EXTENDS Naturals, TLC
VARIABLES step, cache, last
Page(n) == [number |-> n, hits |-> 0]
Init == /\ step = 0
        /\ cache = [n \in {} |-> 0]
        /\ last = "none"
Load(n) == /\ cache' = (n :> Page(n)) @@ cache
           /\ last' = Page(n)
Hit(n) == /\ cache' = [cache EXCEPT ![n].hits = @ + 1]
          /\ UNCHANGED last
Replace(n, m) == /\ cache' = (m :> Page(m)) @@ [p \in DOMAIN cache \ {n} |-> cache[p]]
                 /\ UNCHANGED last
Restart(n) == /\ cache' = n :> Page(n)
              /\ UNCHANGED last
Clear == /\ cache' = [n \in {} |-> 0]
         /\ UNCHANGED last
Next == /\ step' = step + 1
        /\ \/ step = 0 /\ Load(10)
           \/ step = 1 /\ Load(20)
           \/ step = 2 /\ Hit(10)
           \/ step = 3 /\ Replace(10, 30)
           \/ step = 4 /\ Restart(40)
           \/ step = 5 /\ Clear
Short == step < 6
====
