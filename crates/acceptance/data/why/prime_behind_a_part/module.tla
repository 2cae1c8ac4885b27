---- MODULE Accounts ----
EXTENDS Naturals
VARIABLE account
Init == account = [ann |-> [open |-> TRUE, sum |-> 3]]
Pay == account.ann.sum > 0 /\ account["ann"].sum' = account.ann.sum - 1
Next == Pay
====
