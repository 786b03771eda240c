signatures 3;

// Written by giopdump_signatures from recursive.idl.
// whole: 7 operations, 1 exception, 7 types; by half: 0 operations; left out: 1 operation, 0 exceptions.

// Every object
operation boolean _is_a(in string logical_type_id);
operation boolean _non_existent();

// R::I (recursive.idl:24)
struct Node;
struct Node "IDL:R/Node:1.0" { long v; sequence<Node> kids; };
exception Lost "IDL:R/Lost:1.0" { sequence<Node> path; };
struct Expr;
struct Call "IDL:R/Expr/Call:1.0" { string fn; sequence<Expr> args; };
union Term "IDL:R/Expr/Term:1.0" switch (short) {
  case 0: sequence<Expr> more;
  default: sequence<Call> calls;
};
struct Expr "IDL:R/Expr:1.0" { Call made; Term t; sequence<Node> grid[2][3]; };
operation void calls(in Call c);
operation Expr eval();
union Tree;
union Tree "IDL:R/Tree:1.0" switch (boolean) { case true: octet leaf; case false: sequence<Tree, 2> two; };
operation sequence<Node> all(inout Tree t);
// left out: R::I::bads (recursive.idl:28): parameter b: needs R::Bad::Inner
struct Rows;
struct Rows "IDL:R/Rows:1.0" { sequence<Rows> pair[2]; sequence<sequence<Rows>> deep; };
operation void table(in Rows r, in sequence<Rows> s);
struct Rows_sequence_x2 { sequence<Rows> v[2]; };
operation Rows_sequence_x2 pairs();

// Types that can't be said, or that need one
// left out: R::Bad (recursive.idl:18): member d: long double
// left out: R::Bad::Inner (recursive.idl:18): needs R::Bad
