// Sets by what is in them.
// z3:     Distributes verified, Excludes verified, Mixes error
// ematch: Distributes verified, Excludes verified, Mixes error

type Element;
type Set;
function in(Element, Set) returns (bool);
function union(Set, Set) returns (Set);
function meet(Set, Set) returns (Set);
function without(Set, Set) returns (Set);
axiom (forall e: Element, s, t: Set :: {in(e, union(s, t))} in(e, union(s, t)) <==> in(e, s) || in(e, t));
axiom (forall e: Element, s, t: Set :: {in(e, meet(s, t))} in(e, meet(s, t)) <==> in(e, s) && in(e, t));
axiom (forall e: Element, s, t: Set :: {in(e, without(s, t))} in(e, without(s, t)) <==> in(e, s) && !in(e, t));

procedure Distributes(e: Element, s: Set, t: Set, u: Set)
{
  assert in(e, meet(s, union(t, u))) ==> in(e, union(meet(s, t), meet(s, u)));
  assert in(e, union(meet(s, t), meet(s, u))) ==> in(e, meet(s, union(t, u)));
}

procedure Excludes(e: Element, s: Set, t: Set)
  requires in(e, without(union(s, t), s));
  ensures in(e, t) && !in(e, s);
{
}

// Only one of the two is taken away.
procedure Mixes(e: Element, s: Set, t: Set, u: Set)
  requires in(e, without(s, meet(t, u)));
  ensures !in(e, t);
{
}
