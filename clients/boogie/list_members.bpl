// Lists by two constructors, what is a member of one, and a list that is put before another.
// z3:     Holds verified, Joins verified, Empties verified, Loses error
// ematch: Holds verified, Joins verified, Empties verified, Loses error

type Item;
type Items;
const none: Items;
function put(Item, Items) returns (Items);
function first(Items) returns (Item);
function rest(Items) returns (Items);
function member(Item, Items) returns (bool);
function joined(Items, Items) returns (Items);

axiom (forall i: Item, l: Items :: {put(i, l)} first(put(i, l)) == i && rest(put(i, l)) == l && put(i, l) != none);
axiom (forall i: Item :: {member(i, none)} !member(i, none));
axiom (forall i, j: Item, l: Items :: {member(i, put(j, l))} member(i, put(j, l)) <==> i == j || member(i, l));
axiom (forall l: Items :: {joined(none, l)} joined(none, l) == l);
axiom (forall i: Item, l, m: Items :: {joined(put(i, l), m)} joined(put(i, l), m) == put(i, joined(l, m)));

procedure Holds(a: Item, b: Item, l: Items)
{
  assert member(b, put(a, put(b, l)));
  assert first(rest(put(a, put(b, l)))) == b;
}

procedure Joins(a: Item, b: Item, l: Items, i: Item)
  requires member(i, l);
{
  assert member(i, joined(put(a, put(b, none)), l));
}

procedure Empties(l: Items, i: Item)
  requires member(i, l);
{
  assert l != none;
}

// What was before is not a member for sure.
procedure Loses(a: Item, b: Item, l: Items)
  requires member(a, l);
{
  assert member(a, rest(l)) || first(l) == a;
}
