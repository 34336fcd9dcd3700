// Foralls and exists in contracts.
// z3:     Takes verified, Gives verified, Everywhere verified, Invents error
// ematch: Takes verified, Gives verified, Everywhere verified, Invents error

type Item;
type Box;
function inside(Item, Box) returns (bool);
function good(Item) returns (bool);
function fix(Item) returns (Item);
axiom (forall i: Item :: {fix(i)} good(fix(i)));

procedure Takes(b: Box)
  requires (exists i: Item :: {inside(i, b)} inside(i, b) && good(i));
  requires (forall i: Item :: {inside(i, b)} inside(i, b) ==> !good(i));
  ensures false;
{
}

procedure Gives(b: Box, i: Item)
  requires inside(fix(i), b);
  ensures (exists j: Item :: {inside(j, b)} inside(j, b) && good(j));
{
}

procedure Everywhere(b: Box, c: Box)
  requires (forall i: Item :: {inside(i, b)} inside(i, b) ==> good(i));
  requires (forall i: Item :: {inside(i, c)} inside(i, c) ==> inside(i, b));
  ensures (forall i: Item :: {inside(i, c)} inside(i, c) ==> good(i));
{
}

// Nothing need be inside.
procedure Invents(b: Box)
  requires (forall i: Item :: {inside(i, b)} inside(i, b) ==> good(i));
  ensures (exists i: Item :: {inside(i, b)} inside(i, b));
{
}
