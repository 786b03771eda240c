signatures 3;

// Written by giopdump_signatures from references.idl.
// whole: 5 operations, 0 exceptions, 1 type; by half: 0 operations; left out: 0 operations, 0 exceptions.

// Every object
operation boolean _is_a(in string logical_type_id);
operation boolean _non_existent();

// R::Sooner (references.idl:7)
struct Ahead "IDL:R/Ahead:1.0" { Object who; Object any_one; };
operation Object next(in sequence<Object> many, in Ahead one);

// R::Later (references.idl:8)
operation Object back();

// R::Last (references.idl:10)
operation void hold(in Object one);
