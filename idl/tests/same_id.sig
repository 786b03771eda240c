signatures 3;

// Written by giopdump_signatures from same_id.idl.
// whole: 3 operations, 1 exception, 0 types; by half: 0 operations; left out: 0 operations, 2 exceptions.

// Every object
operation boolean _is_a(in string logical_type_id);
operation boolean _non_existent();

// S::I (same_id.idl:13)
exception A "IDL:S/Twice:1.0" { long n; };
// exception S::B (same_id.idl:4) has the repository id of one above
// left out: exception S::C (same_id.idl:5): unequal members under one repository id: S::D (same_id.idl:6)
// exception S::D (same_id.idl:6) has the repository id of one above
operation void f();

// Exceptions that no interface above declares or raises
// left out: exception S::Quoted (same_id.idl:11): its repository id 'LOCAL:with a space' can't be written
