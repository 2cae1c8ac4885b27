----------------------------- MODULE Clients -----------------------------
(* Clients that each take a ticket and are served one at a time, in the order of
   the tickets. The part from BEGIN TRANSLATION to END TRANSLATION is what
   the PlusCal translator writes. *)
EXTENDS Naturals, TLC

CONSTANT N

(***************************************************************************
--algorithm Clients
variables ticket = 0, serving = 0;

process Client \in 1..N
variable mine = 0;
begin
take: mine := ticket;
      ticket := ticket + 1;
wait: await serving = mine;
use:  serving := serving + 1;
end process;

end algorithm;
 ***************************************************************************)
\* BEGIN TRANSLATION
VARIABLES ticket, serving, pc, mine

vars == << ticket, serving, pc, mine >>

ProcSet == (1..N)

Init == (* Global variables *)
        /\ ticket = 0
        /\ serving = 0
        (* Process Client *)
        /\ mine = [self \in 1..N |-> 0]
        /\ pc = [self \in ProcSet |-> "take"]

take(self) == /\ pc[self] = "take"
              /\ mine' = [mine EXCEPT ![self] = ticket]
              /\ ticket' = ticket + 1
              /\ pc' = [pc EXCEPT ![self] = "wait"]
              /\ UNCHANGED serving

wait(self) == /\ pc[self] = "wait"
              /\ serving = mine[self]
              /\ pc' = [pc EXCEPT ![self] = "use"]
              /\ UNCHANGED << ticket, serving, mine >>

use(self) == /\ pc[self] = "use"
             /\ serving' = serving + 1
             /\ pc' = [pc EXCEPT ![self] = "Done"]
             /\ UNCHANGED << ticket, mine >>

Client(self) == take(self) \/ wait(self) \/ use(self)

(* Allow infinite stuttering to prevent deadlock on termination. *)
Terminating == /\ \A self \in ProcSet: pc[self] = "Done"
               /\ UNCHANGED vars

Next == (\E self \in 1..N: Client(self))
           \/ Terminating

Spec == Init /\ [][Next]_vars

Termination == <>(\A self \in ProcSet: pc[self] = "Done")

\* END TRANSLATION

TypeOK ==
  /\ ticket \in 0..N
  /\ serving \in 0..N
  /\ mine \in [1..N -> 0..N]
  /\ pc \in [1..N -> {"take", "wait", "use", "Done"}]

OneAtATime ==
  \A i, j \in 1..N : (pc[i] = "use" /\ pc[j] = "use") => i = j

InTurn == \A i \in 1..N : pc[i] = "use" => mine[i] = serving
==========================================================================
