---- MODULE Workers ----
EXTENDS Naturals, Sequences
CONSTANT Proc
VARIABLES pc, last, log
Kind == {"idle", "busy"}
Init ==
    /\ pc = [p \in Proc |-> "idle"]
    /\ last = [by |-> 0, what |-> "none"]
    /\ log = << >>
Begin(p) ==
    /\ pc[p] = "idle"
    /\ pc' = [pc EXCEPT ![p] = "bussy"]
    /\ UNCHANGED <<last, log>>
Next == \E p \in Proc : Begin(p)
PcOK == pc \in [Proc -> Kind]
LastOK == last \in [by : Nat, what : {"none"}]
TypeOK == LastOK /\ PcOK /\ log \in Seq(Nat)
====
