signatures 2;

// Written by giopdump_signatures from recursive.idl.
// whole: 2 operations, 0 exceptions, 0 types; by half: 0 operations; left out: 6 operations, 1 exception.

// Every object
operation boolean _is_a(in string logical_type_id);
operation boolean _non_existent();

// R::I (recursive.idl:24)
// left out: exception R::Lost (recursive.idl:23): member path: needs R::Node
// left out: R::I::calls (recursive.idl:25): parameter c: needs R::Expr::Call
// left out: R::I::eval (recursive.idl:26): return value: needs R::Expr
// left out: R::I::all (recursive.idl:27): parameter t: needs R::Tree
// left out: R::I::bads (recursive.idl:28): parameter b: needs R::Bad::Inner
// left out: R::I::table (recursive.idl:29): parameter r: needs R::Rows
// left out: R::I::pairs (recursive.idl:30): return value: needs R::Rows

// Types that can't be said, or that need one
// left out: R::Expr (recursive.idl:11): member made: R::Expr::Call within itself
// left out: R::Expr::Call (recursive.idl:12): member args: needs R::Expr
// left out: R::Node (recursive.idl:5): member kids: R::Node within itself
// left out: R::Tree (recursive.idl:8): member two: R::Tree within itself
// left out: R::Bad (recursive.idl:18): member i: R::Bad::Inner within itself
// left out: R::Bad::Inner (recursive.idl:18): member all: needs R::Bad
// left out: R::Rows (recursive.idl:21): member pair: R::Rows within itself
