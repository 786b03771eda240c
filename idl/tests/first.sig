signatures 1;

// Written by giopdump_signatures from first.idl.
// whole: 3 operations, 1 exception, 1 type; by half: 2 operations; left out: 0 operations, 0 exceptions.

// Every object
operation boolean _is_a(in string logical_type_id);
operation boolean _non_existent();

// F::Box (first.idl:5)
struct Money { longlong cents; };
exception Broke "IDL:F/Broke:1.0" { Money missing; };
// the return value: rest (any)
operation void get(in string name);
// parameter more of the request: rest (any)
operation void put(in Money sum);
operation Money count();
