-------------------------------- MODULE Jugs --------------------------------
(* The jugs of Die Hard: with one jug of 5 gallons, one of 3 and a fountain,
   4 gallons are to be measured.  NotFour is false where that is done, so the
   states that lead to it are a way to do it, and there is no shorter one. *)
EXTENDS Integers
VARIABLES big, small

TypeOK == big \in 0..5 /\ small \in 0..3

Init == big = 0 /\ small = 0

Min(a, b) == IF a < b THEN a ELSE b

FillBig == big' = 5 /\ UNCHANGED small
FillSmall == small' = 3 /\ UNCHANGED big
EmptyBig == big' = 0 /\ UNCHANGED small
EmptySmall == small' = 0 /\ UNCHANGED big
SmallToBig == /\ big' = Min(big + small, 5)
              /\ small' = small - (big' - big)
BigToSmall == /\ small' = Min(big + small, 3)
              /\ big' = big - (small' - small)

Next == FillBig \/ FillSmall \/ EmptyBig \/ EmptySmall
          \/ SmallToBig \/ BigToSmall

Spec == Init /\ [][Next]_<<big, small>>

NotFour == big # 4
=============================================================================
