signatures 3;

// Written by giopdump_signatures from left_out.idl.
// whole: 10 operations, 2 exceptions, 5 types; by half: 0 operations; left out: 5 operations, 0 exceptions.

// Every object
operation boolean _is_a(in string logical_type_id);
operation boolean _non_existent();

// L::Vague (left_out.idl:11)
operation void still_travels(in long n);

// L::Bag (left_out.idl:16)
struct Pair "IDL:L/Pair:1.0" { string name; any value; };
exception Odd "IDL:L/Odd:1.0" { sequence<Pair> all; };
exception Even "IDL:L/Even:1.0" { long two; };
operation void with_any(in any one);
operation void with_pairs(in sequence<Pair> some);
struct Node;
struct Node "IDL:L/Node:1.0" { long v; sequence<Node> kids; };
operation void with_node(out Node top);
// left out: L::Bag::with_money (left_out.idl:20): parameter sum: fixed
// left out: L::Bag::with_long_double (left_out.idl:21): parameter one: long double
// left out: L::Bag::with_value (left_out.idl:22): parameter one: value type
// left out: L::Bag::with_boxed (left_out.idl:23): parameter one: value type
// left out: L::Bag::with_vague (left_out.idl:24): parameter one: abstract interface
operation void with_code(in TypeCode code);
operation Pair _get_both();
operation void _set_both(in Pair value);
operation void good(in long n);

// Types that only an any may have
struct StructMember "IDL:omg.org/CORBA/StructMember:1.0" { string name; TypeCode type; Object type_def; };
struct UnionMember "IDL:omg.org/CORBA/UnionMember:1.0" {
  string name;
  any label;
  TypeCode type;
  Object type_def;
};
struct ValueMember "IDL:omg.org/CORBA/ValueMember:1.0" {
  string name;
  string id;
  string defined_in;
  string version;
  TypeCode type;
  Object type_def;
  short access;
};
