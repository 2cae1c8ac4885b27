------------------------------ MODULE Peterson ------------------------------
(* Peterson's algorithm: of two processes, one at most is in its critical
   section.  A process raises its flag, lets the other one go first, and then
   waits until the other's flag is down or the turn is its own. *)
VARIABLES flag, turn, at

vars == <<flag, turn, at>>
Processes == {"p", "q"}
Other(i) == IF i = "p" THEN "q" ELSE "p"

TypeOK ==
  /\ flag \in [Processes -> BOOLEAN]
  /\ turn \in Processes
  /\ at \in [Processes -> {"idle", "asked", "waiting", "critical"}]

Init ==
  /\ flag = [i \in Processes |-> FALSE]
  /\ turn \in Processes
  /\ at = [i \in Processes |-> "idle"]

Goes(i, from, to) == at[i] = from /\ at' = [at EXCEPT ![i] = to]

Ask(i) ==
  /\ Goes(i, "idle", "asked")
  /\ flag' = [flag EXCEPT ![i] = TRUE]
  /\ UNCHANGED turn

Yield(i) ==
  /\ Goes(i, "asked", "waiting")
  /\ turn' = Other(i)
  /\ UNCHANGED flag

Enter(i) ==
  /\ Goes(i, "waiting", "critical")
  /\ ~ flag[Other(i)] \/ turn = i
  /\ UNCHANGED <<flag, turn>>

Leave(i) ==
  /\ Goes(i, "critical", "idle")
  /\ flag' = [flag EXCEPT ![i] = FALSE]
  /\ UNCHANGED turn

Next == \E i \in Processes : Ask(i) \/ Yield(i) \/ Enter(i) \/ Leave(i)

Spec == Init /\ [][Next]_vars /\ \A i \in Processes : WF_vars(Yield(i) \/ Enter(i))

MutualExclusion == ~ (at["p"] = "critical" /\ at["q"] = "critical")
=============================================================================
