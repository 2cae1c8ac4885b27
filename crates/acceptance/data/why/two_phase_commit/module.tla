---- MODULE TwoPhase ----
EXTENDS FiniteSets
CONSTANT RM
VARIABLES rmState, tmState, prepared
Init ==
    /\ rmState = [r \in RM |-> "working"]
    /\ tmState = "init"
    /\ prepared = {}
Prepare(r) ==
    /\ rmState[r] = "working"
    /\ rmState' = [rmState EXCEPT ![r] = "prepared"]
    /\ prepared' = prepared \cup {r}
    /\ UNCHANGED tmState
TMCommit ==
    /\ tmState = "init"
    /\ prepared # {}
    /\ tmState' = "committed"
    /\ UNCHANGED <<rmState, prepared>>
Abort(r) ==
    /\ rmState[r] = "working"
    /\ rmState' = [rmState EXCEPT ![r] = "aborted"]
    /\ UNCHANGED <<tmState, prepared>>
Commit(r) ==
    /\ tmState = "committed"
    /\ rmState[r] = "prepared"
    /\ rmState' = [rmState EXCEPT ![r] = "committed"]
    /\ UNCHANGED <<tmState, prepared>>
Next == TMCommit \/ \E r \in RM : Prepare(r) \/ Abort(r) \/ Commit(r)
Aborted(r) == rmState[r] = "aborted"
Committed(r) == rmState[r] = "committed"
TypeOK == prepared \subseteq RM
Consistent ==
    \A r1, r2 \in RM :
        ~ /\ Aborted(r1)
          /\ Committed(r2)
Correct == TypeOK /\ Consistent
====
