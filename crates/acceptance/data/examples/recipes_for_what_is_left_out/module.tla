---- MODULE Recipes ----
EXTENDS Integers, Sequences, FiniteSets
VARIABLES x, y
Most == 5
Sum(f, S) == Cardinality({<<k, i>> \in S \X (1..Most) : i <= f[k]})
ASSUME Sum([a |-> 3, b |-> 4], {"a", "b"}) = 7
RemoveAt(s, i) == SubSeq(s, 1, i - 1) \o SubSeq(s, i + 1, Len(s))
InsertAt(s, i, e) == SubSeq(s, 1, i - 1) \o <<e>> \o SubSeq(s, i, Len(s))
Reverse(s) == [i \in 1..Len(s) |-> s[Len(s) + 1 - i]]
Range(s) == {s[i] : i \in DOMAIN s}
ASSUME RemoveAt(<<1, 2, 3>>, 1) = <<2, 3>> /\ RemoveAt(<<1, 2, 3>>, 3) = <<1, 2>> /\ RemoveAt(<<1>>, 1) = << >>
ASSUME InsertAt(<<1, 2>>, 3, 9) = <<1, 2, 9>> /\ InsertAt(<< >>, 1, 9) = <<9>>
ASSUME Reverse(<<1, 2>>) = <<2, 1>> /\ Range(<<1, 2>>) = {1, 2}
Without(s, e) ==
    LET K == {i \in 1..Len(s) : s[i] # e}
    IN  [n \in 1..Cardinality(K) |->
            s[CHOOSE i \in K : Cardinality({j \in K : j <= i}) = n]]
ASSUME Without(<<1, 2, 1, 3>>, 1) = <<2, 3>>
Max(S) == CHOOSE m \in S : \A e \in S : e <= m
Permutations(S) == {f \in [S -> S] : \A a, b \in S : f[a] = f[b] => a = b}
ASSUME Max({1, 3, 2}) = 3 /\ Cardinality(Permutations({1, 2, 3})) = 6
Node == 1..4
Edge == {<<1, 2>>, <<2, 3>>}
From(a) == CHOOSE T \in SUBSET Node :
             a \in T /\ \A u \in T : \A v \in Node : <<u, v>> \in Edge => v \in T
ASSUME From(1) = {1, 2, 3}
Once(T) == UNION {U \cup {v \in Node : \E u \in U : <<u, v>> \in Edge} : U \in {T}}
Twice(T) == Once(Once(T))
FourTimes(T) == Twice(Twice(T))
ASSUME FourTimes({1}) = {1, 2, 3}
SelectSeq1(s) == LET K == {i \in 1..Len(s) : s[i] > 1} IN [n \in 1..Cardinality(K) |-> s[CHOOSE i \in K : Cardinality({j \in K : j <= i}) = n]]
ASSUME SelectSeq1(<<1, 2, 3>>) = <<2, 3>>
SetToSeq(S) == CHOOSE q \in [1..Cardinality(S) -> S] : {q[i] : i \in DOMAIN q} = S
ASSUME SetToSeq({1, 2}) \in {<<1, 2>>, <<2, 1>>}
Expensive(n) == n + 1
Init == x = 0 /\ y = 0
Next == x < 3 /\ (\E v \in {Expensive(x)} : y' = v + v) /\ x' = x + 1
Val == (CHOOSE r \in {v + v : v \in {Expensive(x)}} : TRUE) = 2 * (x + 1)
====
