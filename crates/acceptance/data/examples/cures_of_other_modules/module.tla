---- MODULE Cures ----
EXTENDS Integers, Sequences, FiniteSets, TLC
CONSTANT None
VARIABLE at
Most == 9
\* sequences
Last(s) == s[Len(s)]
Front(s) == SubSeq(s, 1, Len(s) - 1)
ASSUME Last(<<1, 2>>) = 2 /\ Front(<<1, 2>>) = <<1>> /\ Front(<<1>>) = << >>
ToSet(s) == {s[i] : i \in DOMAIN s}
Contains(s, e) == \E i \in DOMAIN s : s[i] = e
ASSUME ToSet(<<1, 1, 3>>) = {1, 3} /\ Contains(<<1, 2>>, 2) /\ ~Contains(<<1, 2>>, 3)
ReplaceAt(s, i, e) == [s EXCEPT ![i] = e]
Cons(e, s) == <<e>> \o s
ASSUME ReplaceAt(<<1, 2>>, 2, 9) = <<1, 9>> /\ Cons(9, <<1>>) = <<9, 1>>
IsPrefix(s, t) == Len(s) <= Len(t) /\ SubSeq(t, 1, Len(s)) = s
IsSuffix(s, t) == Len(s) <= Len(t) /\ SubSeq(t, Len(t) - Len(s) + 1, Len(t)) = s
ASSUME IsPrefix(<<1>>, <<1, 2>>) /\ ~IsPrefix(<<2>>, <<1, 2>>) /\ IsPrefix(<< >>, <<1>>)
ASSUME IsSuffix(<<2>>, <<1, 2>>) /\ ~IsSuffix(<<1>>, <<1, 2>>) /\ IsSuffix(<< >>, <<1>>) /\ IsSuffix(<< >>, << >>)
Remove(s, e) == LET K == {i \in 1..Len(s) : s[i] # e} IN [n \in 1..Cardinality(K) |-> s[CHOOSE i \in K : Cardinality({j \in K : j <= i}) = n]]
ASSUME Remove(<<1, 2, 1, 3>>, 1) = <<2, 3>> /\ Remove(<<1, 1>>, 1) = << >>
SeqOf(S, n) == UNION {[1..m -> S] : m \in 0..n}
ASSUME SeqOf({7}, 2) = {<< >>, <<7>>, <<7, 7>>} /\ Cardinality(SeqOf({1, 2}, 3)) = 15
SetToSeqs(S) == {q \in [1..Cardinality(S) -> S] : {q[i] : i \in DOMAIN q} = S}
ASSUME SetToSeqs({1, 2}) = {<<1, 2>>, <<2, 1>>}
FirstAbove(s, m) == IF \E i \in 1..Len(s) : s[i] > m THEN CHOOSE i \in 1..Len(s) : s[i] > m ELSE 0
ASSUME FirstAbove(<<1, 5, 9>>, 4) = 2 /\ FirstAbove(<<1, 5, 9>>, 9) = 0
Zip(s, t) == [i \in DOMAIN s |-> <<s[i], t[i]>>]
ASSUME Zip(<<1, 2>>, <<"a", "b">>) = <<<<1, "a">>, <<2, "b">>>>
\* functions
Restrict(f, S) == [x \in S |-> f[x]]
IsInjective(f) == \A a, b \in DOMAIN f : f[a] = f[b] => a = b
ASSUME Restrict(<<7, 8>>, {2}) = (2 :> 8) /\ IsInjective(<<1, 2>>) /\ ~IsInjective(<<1, 1>>)
Injection(S, T) == {f \in [S -> T] : \A a, b \in S : f[a] = f[b] => a = b}
Surjection(S, T) == {f \in [S -> T] : {f[a] : a \in S} = T}
Bijection(S, T) == {f \in [S -> T] : {f[a] : a \in S} = T /\ \A a, b \in S : f[a] = f[b] => a = b}
IsBijection(f, S, T) == DOMAIN f = S /\ {f[a] : a \in S} = T /\ \A a, b \in S : f[a] = f[b] => a = b
ASSUME Cardinality(Injection({1, 2}, {1, 2, 3})) = 6 /\ Cardinality(Surjection({1, 2, 3}, {1, 2})) = 6
ASSUME Cardinality(Bijection({1, 2, 3}, {4, 5, 6})) = 6
ASSUME IsBijection(<<4, 5>>, {1, 2}, {4, 5}) /\ ~IsBijection(<<4, 4>>, {1, 2}, {4})
Inverse(f, S, T) == [t \in T |-> CHOOSE x \in S : f[x] = t]
AntiFunction(f) == [t \in {f[x] : x \in DOMAIN f} |-> CHOOSE x \in DOMAIN f : f[x] = t]
ASSUME Inverse(<<7, 8>>, {1, 2}, {7, 8}) = (7 :> 1 @@ 8 :> 2) /\ AntiFunction(<<7, 8>>) = (7 :> 1 @@ 8 :> 2)
\* sets and numbers
Min(S) == CHOOSE m \in S : \A x \in S : m <= x
kSubset(k, S) == {T \in SUBSET S : Cardinality(T) = k}
Abs(n) == IF n < 0 THEN -n ELSE n
ASSUME Min({2, 1, 3}) = 1 /\ Cardinality(kSubset(2, 1..4)) = 6 /\ Abs(-3) = 3 /\ Abs(3) = 3
\* bags
SetToBag(S) == [x \in S |-> 1]
EmptyBag == << >>
BagToSet(B) == DOMAIN B
BagIn(x, B) == x \in DOMAIN B
CopiesIn(x, B) == IF x \in DOMAIN B THEN B[x] ELSE 0
IsABag(B) == \A x \in DOMAIN B : B[x] \in Nat
BagCardinality(B) == Cardinality({<<x, i>> \in (DOMAIN B) \X (1..Most) : i <= B[x]})
Count(f, x) == IF x \in DOMAIN f THEN f[x] ELSE 0
Plus(a, b) == [x \in DOMAIN a \cup DOMAIN b |-> Count(a, x) + Count(b, x)]
IsSubBag(a, b) == \A x \in DOMAIN a : x \in DOMAIN b /\ a[x] <= b[x]
AB == SetToBag({"a", "b"})
ABB == Plus(AB, SetToBag({"b"}))
ASSUME ABB = [a |-> 1, b |-> 2] /\ BagCardinality(ABB) = 3 /\ Plus(EmptyBag, AB) = AB
ASSUME IsABag(ABB) /\ CopiesIn("b", ABB) = 2 /\ CopiesIn("c", ABB) = 0 /\ BagIn("a", AB) /\ BagToSet(EmptyBag) = {}
ASSUME IsSubBag(AB, ABB) /\ ~IsSubBag(ABB, AB)
\* a value outside of every set
Init == at = None
Next == at' \in {None, 1}
Known == at # None => at \in 1..3
Outside == None \notin 1..3
====
